	.file	"rattle"
	.section	.rodata.cst16,"aM",@progbits,16
	.p2align	4, 0x0                          # -- Begin function balaban::index
.LCPI0_0:
	.zero	16,85
.LCPI0_1:
	.zero	16,51
.LCPI0_2:
	.zero	16,15
	.section	".text.balaban::index","ax",@progbits
	.p2align	4
	.type	"balaban::index",@function
"balaban::index":                       # @"balaban::index"
# %bb.0:                                # %start
	pushq	%rbp
	pushq	%r15
	pushq	%r14
	pushq	%r13
	pushq	%r12
	pushq	%rbx
	subq	$1096, %rsp                     # imm = 0x448
	movq	%rcx, %r12
	movq	%rdx, %r15
	movq	%rsi, %r14
	movq	%rdi, %rbx
	pxor	%xmm0, %xmm0
	movdqa	%xmm0, 48(%rsp)
	movdqa	%xmm0, 32(%rsp)
	movdqa	%xmm0, 16(%rsp)
	movq	$0, 64(%rsp)
	leaq	72(%rsp), %r13
	movl	$512, %edx                      # imm = 0x200
	movq	%r13, %rdi
	xorl	%esi, %esi
	callq	memset@PLT
	leaq	584(%rsp), %rdi
	movl	$512, %edx                      # imm = 0x200
	xorl	%esi, %esi
	callq	memset@PLT
	cmpq	$384, %r12                      # imm = 0x180
	ja	.LBB0_45
# %bb.1:                                # %start
	leaq	-65(%r14), %rax
	cmpq	$-64, %rax
	jb	.LBB0_45
# %bb.2:                                # %start
	movl	%r12d, %eax
	andl	$1, %eax
	jne	.LBB0_45
# %bb.3:                                # %after.1.i.i.i
	movq	%r12, %rbp
	shrq	%rbp
	movb	$1, %dl
	testq	%r12, %r12
	je	.LBB0_10
# %bb.4:                                # %join.5.i.i.i.i.preheader
	xorl	%esi, %esi
	.p2align	4
.LBB0_5:                                # %join.5.i.i.i.i
                                        # =>This Inner Loop Header: Depth=1
	movzbl	(%r15,%rsi,2), %edi
	leaq	-1(%rdi), %rcx
	cmpq	%r14, %rcx
	jae	.LBB0_6
# %bb.7:                                # %else.9.i.i.i.i
                                        #   in Loop: Header=BB0_5 Depth=1
	movzbl	1(%r15,%rsi,2), %r8d
	leaq	-1(%r8), %rax
	cmpq	%r14, %rax
	jae	.LBB0_8
# %bb.9:                                # %after.6.i.i.i.i
                                        #   in Loop: Header=BB0_5 Depth=1
	movl	$1, %r9d
	movl	$1, %r10d
                                        # kill: def $cl killed $cl killed $rcx
	shlq	%cl, %r10
	movl	%eax, %ecx
	shlq	%cl, %r9
	orq	%r9, 576(%rsp,%rdi,8)
	orq	%r10, 576(%rsp,%r8,8)
	incq	%rsi
	cmpq	%rsi, %rbp
	jne	.LBB0_5
	jmp	.LBB0_10
.LBB0_6:
	xorl	%edx, %edx
.LBB0_10:                               # %"block::bonding::sketched.exit.i.i.i"
	cmpq	$4, %r14
	jae	.LBB0_13
.LBB0_11:
	xorl	%ecx, %ecx
	xorl	%esi, %esi
	xorl	%eax, %eax
	jmp	.LBB0_12
.LBB0_8:
	xorl	%edx, %edx
	cmpq	$4, %r14
	jb	.LBB0_11
.LBB0_13:                               # %vector.ph
	movl	%r14d, %eax
	andl	$124, %eax
	pxor	%xmm3, %xmm3
	xorl	%ecx, %ecx
	pxor	%xmm4, %xmm4
	pxor	%xmm2, %xmm2
	pxor	%xmm1, %xmm1
	pxor	%xmm0, %xmm0
	.p2align	4
.LBB0_14:                               # %vector.body
                                        # =>This Inner Loop Header: Depth=1
	movdqu	584(%rsp,%rcx,8), %xmm7
	movdqu	600(%rsp,%rcx,8), %xmm5
	movdqa	%xmm7, %xmm6
	psrlw	$1, %xmm6
	movdqa	.LCPI0_0(%rip), %xmm8           # xmm8 = [85,85,85,85,85,85,85,85,85,85,85,85,85,85,85,85]
	pand	%xmm8, %xmm6
	psubb	%xmm6, %xmm7
	movdqa	.LCPI0_1(%rip), %xmm9           # xmm9 = [51,51,51,51,51,51,51,51,51,51,51,51,51,51,51,51]
	movdqa	%xmm7, %xmm6
	pand	%xmm9, %xmm6
	psrlw	$2, %xmm7
	pand	%xmm9, %xmm7
	paddb	%xmm6, %xmm7
	movdqa	%xmm7, %xmm6
	psrlw	$4, %xmm6
	paddb	%xmm7, %xmm6
	movdqa	.LCPI0_2(%rip), %xmm7           # xmm7 = [15,15,15,15,15,15,15,15,15,15,15,15,15,15,15,15]
	pand	%xmm7, %xmm6
	psadbw	%xmm3, %xmm6
	movdqa	%xmm5, %xmm10
	psrlw	$1, %xmm10
	pand	%xmm8, %xmm10
	psubb	%xmm10, %xmm5
	movdqa	%xmm5, %xmm8
	pand	%xmm9, %xmm8
	psrlw	$2, %xmm5
	pand	%xmm9, %xmm5
	paddb	%xmm8, %xmm5
	movdqa	%xmm5, %xmm8
	psrlw	$4, %xmm8
	paddb	%xmm5, %xmm8
	pand	%xmm7, %xmm8
	psadbw	%xmm3, %xmm8
	paddq	%xmm6, %xmm4
	paddq	%xmm8, %xmm2
	pcmpeqd	%xmm5, %xmm5
	psubq	%xmm5, %xmm6
	por	%xmm6, %xmm1
	psubq	%xmm5, %xmm8
	por	%xmm8, %xmm0
	addq	$4, %rcx
	cmpq	%rcx, %rax
	jne	.LBB0_14
# %bb.15:                               # %middle.block
	paddq	%xmm4, %xmm2
	pshufd	$238, %xmm2, %xmm3              # xmm3 = xmm2[2,3,2,3]
	paddq	%xmm2, %xmm3
	movq	%xmm3, %rcx
	por	%xmm1, %xmm0
	pshufd	$238, %xmm0, %xmm1              # xmm1 = xmm0[2,3,2,3]
	por	%xmm0, %xmm1
	movq	%xmm1, %rsi
	jmp	.LBB0_16
.LBB0_12:                               # %join.5.i11.i.i.i
	movq	584(%rsp,%rax,8), %rdi
	movq	%rdi, %r8
	shrq	%r8
	movabsq	$6148914691236517205, %r9       # imm = 0x5555555555555555
	andq	%r8, %r9
	subq	%r9, %rdi
	movabsq	$3689348814741910323, %r8       # imm = 0x3333333333333333
	movq	%rdi, %r9
	andq	%r8, %r9
	shrq	$2, %rdi
	andq	%r8, %rdi
	addq	%r9, %rdi
	movq	%rdi, %r8
	shrq	$4, %r8
	addq	%rdi, %r8
	movabsq	$1085102592571150095, %rdi      # imm = 0xF0F0F0F0F0F0F0F
	andq	%r8, %rdi
	movabsq	$72340172838076673, %r8         # imm = 0x101010101010101
	imulq	%rdi, %r8
	shrq	$56, %r8
	addq	%r8, %rcx
	incq	%r8
	orq	%r8, %rsi
	incq	%rax
.LBB0_16:                               # %join.5.i11.i.i.i
	cmpq	%rax, %r14
	jne	.LBB0_12
# %bb.17:                               # %"block::bonding::is_plain.exit.i.i.i"
	cmpq	%r12, %rcx
	sete	%al
	andb	%al, %dl
	cmpb	$1, %dl
	jne	.LBB0_45
# %bb.18:                               # %"block::bonding::is_plain.exit.i.i.i"
	cmpq	$7, %rsi
	ja	.LBB0_45
# %bb.19:                               # %arm.5.i
	movq	%r13, (%rsp)
	leaq	16(%rsp), %rdi
	leaq	584(%rsp), %r8
	movq	%r14, %rsi
	movq	%r15, %rdx
	movq	%r12, %rcx
	movq	%r14, %r9
	callq	"reach::summed"
	movzbl	16(%rsp), %eax
	cmpb	$1, %al
	jne	.LBB0_21
# %bb.20:                               # %arm.9.i
	movq	24(%rsp), %rax
	movq	32(%rsp), %rdx
	jmp	.LBB0_46
.LBB0_45:                               # %arm.6.i
	movq	%r14, %rdi
	movq	%r15, %rsi
	movq	%r12, %rdx
	callq	"block::refusal"
.LBB0_46:                               # %arm.4
	movq	$1, (%rbx)
	movq	%rax, 8(%rbx)
	movq	%rdx, 16(%rbx)
.LBB0_44:                               # %common.ret
	addq	$1096, %rsp                     # imm = 0x448
	popq	%rbx
	popq	%r12
	popq	%r13
	popq	%r14
	popq	%r15
	popq	%rbp
	retq
.LBB0_21:                               # %join.5.lr.ph.i.i
	movq	64(%rsp), %rcx
	imulq	%r14, %rcx
	cmpq	$1, %r12
	adcq	$-1, %rcx
	cmpq	$4, %r14
	jae	.LBB0_24
# %bb.22:
	xorl	%edx, %edx
	jmp	.LBB0_23
.LBB0_24:                               # %vector.ph30
	movl	%r14d, %edx
	andl	$124, %edx
	movq	%rcx, %xmm0
	pshufd	$68, %xmm0, %xmm0               # xmm0 = xmm0[0,1,0,1]
	xorl	%esi, %esi
	.p2align	4
.LBB0_25:                               # %vector.body33
                                        # =>This Inner Loop Header: Depth=1
	movdqu	72(%rsp,%rsi,8), %xmm1
	movdqu	88(%rsp,%rsi,8), %xmm2
	movdqa	%xmm0, %xmm3
	psubq	%xmm1, %xmm3
	movdqa	%xmm0, %xmm1
	psubq	%xmm2, %xmm1
	movdqu	%xmm3, 72(%rsp,%rsi,8)
	movdqu	%xmm1, 88(%rsp,%rsi,8)
	addq	$4, %rsi
	cmpq	%rsi, %rdx
	jne	.LBB0_25
	jmp	.LBB0_26
.LBB0_23:                               # %join.5.i5.i
	movq	%rcx, %rsi
	subq	72(%rsp,%rdx,8), %rsi
	movq	%rsi, 72(%rsp,%rdx,8)
	incq	%rdx
.LBB0_26:                               # %join.5.i5.i
	cmpq	%rdx, %r14
	jne	.LBB0_23
# %bb.27:                               # %"reach::vertex_sums.exit"
	testb	%al, %al
	je	.LBB0_29
# %bb.28:
	xorl	%eax, %eax
	xorl	%edx, %edx
	jmp	.LBB0_46
.LBB0_29:                               # %arm.3
	xorl	%esi, %esi
	testq	%r12, %r12
	je	.LBB0_39
# %bb.30:                               # %join.5.i.preheader
	xorl	%r8d, %r8d
	movq	%rbx, 8(%rsp)                   # 8-byte Spill
	jmp	.LBB0_31
	.p2align	4
.LBB0_32:                               #   in Loop: Header=BB0_31 Depth=1
	xorl	%ecx, %ecx
.LBB0_37:                               # %"balaban::brings.exit.i"
                                        #   in Loop: Header=BB0_31 Depth=1
	addq	%rcx, %rsi
	incq	%r8
	cmpq	%rbp, %r8
	je	.LBB0_38
.LBB0_31:                               # %join.5.i
                                        # =>This Loop Header: Depth=1
                                        #     Child Loop BB0_34 Depth 2
                                        #     Child Loop BB0_36 Depth 2
	movzbl	(%r15,%r8,2), %eax
	movzbl	1(%r15,%r8,2), %ecx
	movq	64(%rsp,%rcx,8), %r9
	imulq	64(%rsp,%rax,8), %r9
	testq	%r9, %r9
	je	.LBB0_32
# %bb.33:                               # %ok.5.i.i.i
                                        #   in Loop: Header=BB0_31 Depth=1
	movabsq	$1000000000000000000, %rax      # imm = 0xDE0B6B3A7640000
	xorl	%edx, %edx
	divq	%r9
	bsrq	%r9, %rcx
	xorq	$63, %rcx
	movl	%ecx, %edx
	andb	$62, %cl
                                        # kill: def $cl killed $cl killed $rcx
	shlq	%cl, %r9
	xorl	%ecx, %ecx
	shrl	%edx
	shrq	$32, %r9
	imulq	$39, %r9, %r10
	shrq	$6, %r10
	movabsq	$4579722461, %r12               # imm = 0x110F904DD
	subq	%r10, %r12
	movl	$4294967295, %r10d              # imm = 0xFFFFFFFF
	cmpq	%r10, %r12
	cmovaeq	%r10, %r12
	movq	%r12, %r11
	imulq	%r12, %r11
	shrq	$32, %r11
	imulq	%r9, %r11
	shrq	$32, %r11
	movl	$3221225472, %r13d              # imm = 0xC0000000
	subq	%r11, %r13
	cmovbq	%rcx, %r13
	movl	$3221225472, %r11d              # imm = 0xC0000000
	imulq	%r12, %r13
	shrq	$31, %r13
	movabsq	$8589934590, %rbx               # imm = 0x1FFFFFFFE
	andq	%rbx, %r13
	cmpq	%r10, %r13
	cmovaeq	%r10, %r13
	movq	%r13, %r12
	imulq	%r13, %r12
	shrq	$32, %r12
	imulq	%r9, %r12
	shrq	$32, %r12
	movl	$3221225472, %edi               # imm = 0xC0000000
	subq	%r12, %rdi
	cmovbq	%rcx, %rdi
	imulq	%r13, %rdi
	shrq	$31, %rdi
	andq	%rbx, %rdi
	cmpq	%r10, %rdi
	cmovaeq	%r10, %rdi
	movq	%rdi, %r12
	imulq	%rdi, %r12
	shrq	$32, %r12
	imulq	%r9, %r12
	shrq	$32, %r12
	subq	%r12, %r11
	cmovbq	%rcx, %r11
	imulq	%rdi, %r11
	shrq	$31, %r11
	andq	%rbx, %r11
	cmpq	%r10, %r11
	cmovaeq	%r10, %r11
	imulq	$1000000000, %r11, %r9          # imm = 0x3B9ACA00
	shrq	$32, %r9
	xorb	$31, %dl
	movl	%edx, %ecx
	shrq	%cl, %r9
	leaq	-1(%r9), %rdx
	.p2align	4
.LBB0_34:                               # %loop.2.i.i.i.i
                                        #   Parent Loop BB0_31 Depth=1
                                        # =>  This Inner Loop Header: Depth=2
	movq	%rdx, %rcx
	movq	%r9, %rdi
	imulq	%r9, %rdi
	decq	%r9
	decq	%rdx
	cmpq	%rdi, %rax
	jb	.LBB0_34
# %bb.35:                               # %loop.2.i4.i.i.i.preheader
                                        #   in Loop: Header=BB0_31 Depth=1
	movq	8(%rsp), %rbx                   # 8-byte Reload
	.p2align	4
.LBB0_36:                               # %loop.2.i4.i.i.i
                                        #   Parent Loop BB0_31 Depth=1
                                        # =>  This Inner Loop Header: Depth=2
	leaq	2(%rcx), %rdx
	imulq	%rdx, %rdx
	incq	%rcx
	cmpq	%rax, %rdx
	jbe	.LBB0_36
	jmp	.LBB0_37
.LBB0_38:                               # %after.1.loopexit.i
	imulq	%rbp, %rsi
.LBB0_39:                               # %after.1.i
	addq	$2, %rbp
	subq	%r14, %rbp
	je	.LBB0_47
# %bb.40:                               # %"balaban::reckon.exit"
	movq	%rsi, %rax
	orq	%rbp, %rax
	shrq	$32, %rax
	je	.LBB0_41
# %bb.42:
	movq	%rsi, %rax
	xorl	%edx, %edx
	divq	%rbp
	jmp	.LBB0_43
.LBB0_41:
	movl	%esi, %eax
	xorl	%edx, %edx
	divl	%ebp
                                        # kill: def $eax killed $eax def $rax
.LBB0_43:
	movq	$0, (%rbx)
	movq	%rax, 8(%rbx)
	movq	$0, 16(%rbx)
	jmp	.LBB0_44
.LBB0_47:                               # %trap.1.i.i
	ud2
.Lfunc_end0:
	.size	"balaban::index", .Lfunc_end0-"balaban::index"
                                        # -- End function
	.section	.rodata.cst16,"aM",@progbits,16
	.p2align	4, 0x0                          # -- Begin function block::refusal
.LCPI1_0:
	.quad	1                               # 0x1
	.quad	1                               # 0x1
	.section	".text.block::refusal","ax",@progbits
	.p2align	4
	.type	"block::refusal",@function
"block::refusal":                       # @"block::refusal"
# %bb.0:                                # %start
	leaq	-65(%rdi), %rax
	cmpq	$-64, %rax
	jae	.LBB1_4
# %bb.1:
	movl	$1, %eax
.LBB1_2:                                # %return.4
	xorl	%edx, %edx
	retq
.LBB1_4:                                # %join.3
	cmpq	$385, %rdx                      # imm = 0x181
	setae	%al
	orb	%dl, %al
	testb	$1, %al
	je	.LBB1_6
# %bb.5:
	movl	$2, %eax
	xorl	%edx, %edx
	retq
.LBB1_6:                                # %after.5
	movl	$7, %eax
	testq	%rdx, %rdx
	je	.LBB1_2
# %bb.7:                                # %join.5.i.preheader
	pushq	%rbp
	pushq	%r15
	pushq	%r14
	pushq	%r13
	pushq	%r12
	pushq	%rbx
	shrq	%rdx
	movabsq	$9223372036854775807, %r8       # imm = 0x7FFFFFFFFFFFFFFF
	xorl	%ecx, %ecx
	movq	%r8, -16(%rsp)                  # 8-byte Spill
	xorl	%r10d, %r10d
	jmp	.LBB1_8
.LBB1_32:                               # %"block::bonding::fault.exit.i"
                                        #   in Loop: Header=BB1_8 Depth=1
	cmpq	$6, %r8
	jae	.LBB1_33
.LBB1_34:                               # %join.9.i
                                        #   in Loop: Header=BB1_8 Depth=1
	incq	%rcx
	addq	$2, %r10
	incq	-16(%rsp)                       # 8-byte Folded Spill
	cmpq	%rdx, %rcx
	je	.LBB1_35
.LBB1_8:                                # %join.5.i
                                        # =>This Loop Header: Depth=1
                                        #     Child Loop BB1_14 Depth 2
                                        #     Child Loop BB1_20 Depth 2
                                        #     Child Loop BB1_23 Depth 2
                                        #     Child Loop BB1_28 Depth 2
                                        #     Child Loop BB1_31 Depth 2
	movzbl	(%rsi,%rcx,2), %r15d
	leaq	-1(%r15), %r8
	movl	$3, %r13d
	cmpq	%rdi, %r8
	jae	.LBB1_33
# %bb.9:                                # %join.5.i
                                        #   in Loop: Header=BB1_8 Depth=1
	movzbl	1(%rsi,%rcx,2), %r11d
	leaq	-1(%r11), %r8
	cmpq	%rdi, %r8
	jae	.LBB1_33
# %bb.10:                               # %after.1.i.i
                                        #   in Loop: Header=BB1_8 Depth=1
	cmpb	%r11b, %r15b
	je	.LBB1_11
# %bb.12:                               # %join.14.i.i
                                        #   in Loop: Header=BB1_8 Depth=1
	testq	%rcx, %rcx
	je	.LBB1_34
# %bb.13:                               # %join.5.i.i.i.preheader
                                        #   in Loop: Header=BB1_8 Depth=1
	movq	-16(%rsp), %rbx                 # 8-byte Reload
	movabsq	$9223372036854775807, %r8       # imm = 0x7FFFFFFFFFFFFFFF
	andq	%r8, %rbx
	incq	%rbx
	andq	$-4, %rbx
	leaq	(%rcx,%r8), %r12
	andq	%r8, %r12
	leaq	1(%r12), %r8
	movq	%r8, -24(%rsp)                  # 8-byte Spill
	xorl	%r8d, %r8d
	.p2align	4
.LBB1_14:                               # %join.5.i.i.i
                                        #   Parent Loop BB1_8 Depth=1
                                        # =>  This Inner Loop Header: Depth=2
	movzbl	(%rsi,%r8), %ebp
	movzbl	1(%rsi,%r8), %r14d
	movl	%ebp, %r13d
	xorb	%r15b, %r13b
	movl	%r14d, %r9d
	xorb	%r11b, %r9b
	xorb	%r11b, %bpl
	xorb	%r15b, %r14b
	orb	%bpl, %r14b
	sete	%bpl
	orb	%r13b, %r9b
	movl	$5, %r13d
	je	.LBB1_33
# %bb.15:                               # %join.5.i.i.i
                                        #   in Loop: Header=BB1_14 Depth=2
	testb	%bpl, %bpl
	jne	.LBB1_33
# %bb.16:                               # %loop.2.i.i.i
                                        #   in Loop: Header=BB1_14 Depth=2
	addq	$2, %r8
	cmpq	%r8, %r10
	jne	.LBB1_14
# %bb.17:                               # %join.5.i8.i.i.preheader
                                        #   in Loop: Header=BB1_8 Depth=1
	cmpq	$3, %r12
	jae	.LBB1_19
# %bb.18:                               #   in Loop: Header=BB1_8 Depth=1
	xorl	%r8d, %r8d
	xorl	%r13d, %r13d
	jmp	.LBB1_22
.LBB1_19:                               # %vector.ph24
                                        #   in Loop: Header=BB1_8 Depth=1
	leaq	1(%r12), %r8
	andq	$-4, %r8
	movq	%r8, -8(%rsp)                   # 8-byte Spill
	leaq	(%r8,%r8), %r13
	movzbl	%r15b, %r8d
	movd	%r8d, %xmm0
	punpcklbw	%xmm0, %xmm0            # xmm0 = xmm0[0,0,1,1,2,2,3,3,4,4,5,5,6,6,7,7]
	pxor	%xmm1, %xmm1
	xorl	%r8d, %r8d
	pxor	%xmm2, %xmm2
	.p2align	4
.LBB1_20:                               # %vector.body29
                                        #   Parent Loop BB1_8 Depth=1
                                        # =>  This Inner Loop Header: Depth=2
	movzbl	(%rsi,%r8,2), %r14d
	movzbl	2(%rsi,%r8,2), %ebp
	shll	$8, %ebp
	orl	%r14d, %ebp
	movd	%ebp, %xmm5
	movzbl	4(%rsi,%r8,2), %ebp
	movzbl	6(%rsi,%r8,2), %r14d
	shll	$8, %r14d
	orl	%ebp, %r14d
	movd	%r14d, %xmm6
	movzbl	1(%rsi,%r8,2), %ebp
	movzbl	3(%rsi,%r8,2), %r14d
	shll	$8, %r14d
	orl	%ebp, %r14d
	movd	%r14d, %xmm4
	movzbl	5(%rsi,%r8,2), %ebp
	movzbl	7(%rsi,%r8,2), %r14d
	shll	$8, %r14d
	orl	%ebp, %r14d
	movd	%r14d, %xmm3
	pcmpeqb	%xmm0, %xmm5
	punpcklbw	%xmm5, %xmm5            # xmm5 = xmm5[0,0,1,1,2,2,3,3,4,4,5,5,6,6,7,7]
	pshuflw	$212, %xmm5, %xmm5              # xmm5 = xmm5[0,1,1,3,4,5,6,7]
	pshufd	$212, %xmm5, %xmm5              # xmm5 = xmm5[0,1,1,3]
	movdqa	.LCPI1_0(%rip), %xmm7           # xmm7 = [1,1]
	pand	%xmm7, %xmm5
	paddq	%xmm2, %xmm5
	pcmpeqb	%xmm0, %xmm6
	punpcklbw	%xmm6, %xmm6            # xmm6 = xmm6[0,0,1,1,2,2,3,3,4,4,5,5,6,6,7,7]
	pshuflw	$212, %xmm6, %xmm2              # xmm2 = xmm6[0,1,1,3,4,5,6,7]
	pshufd	$212, %xmm2, %xmm6              # xmm6 = xmm2[0,1,1,3]
	pand	%xmm7, %xmm6
	paddq	%xmm1, %xmm6
	pcmpeqb	%xmm0, %xmm4
	punpcklbw	%xmm4, %xmm4            # xmm4 = xmm4[0,0,1,1,2,2,3,3,4,4,5,5,6,6,7,7]
	pshuflw	$212, %xmm4, %xmm1              # xmm1 = xmm4[0,1,1,3,4,5,6,7]
	pshufd	$212, %xmm1, %xmm2              # xmm2 = xmm1[0,1,1,3]
	pand	%xmm7, %xmm2
	paddq	%xmm5, %xmm2
	pcmpeqb	%xmm0, %xmm3
	punpcklbw	%xmm3, %xmm3            # xmm3 = xmm3[0,0,1,1,2,2,3,3,4,4,5,5,6,6,7,7]
	pshuflw	$212, %xmm3, %xmm1              # xmm1 = xmm3[0,1,1,3,4,5,6,7]
	pshufd	$212, %xmm1, %xmm1              # xmm1 = xmm1[0,1,1,3]
	pand	%xmm7, %xmm1
	paddq	%xmm6, %xmm1
	addq	$4, %r8
	cmpq	%r8, %rbx
	jne	.LBB1_20
# %bb.21:                               # %middle.block35
                                        #   in Loop: Header=BB1_8 Depth=1
	paddq	%xmm2, %xmm1
	pshufd	$238, %xmm1, %xmm0              # xmm0 = xmm1[2,3,2,3]
	paddq	%xmm1, %xmm0
	movq	%xmm0, %r8
	leaq	1(%r12), %r9
	cmpq	-8(%rsp), %r9                   # 8-byte Folded Reload
	je	.LBB1_24
.LBB1_22:                               # %join.5.i8.i.i.preheader41
                                        #   in Loop: Header=BB1_8 Depth=1
	movq	%r8, %rbp
	.p2align	4
.LBB1_23:                               # %join.5.i8.i.i
                                        #   Parent Loop BB1_8 Depth=1
                                        # =>  This Inner Loop Header: Depth=2
	xorl	%r8d, %r8d
	cmpb	%r15b, (%rsi,%r13)
	sete	%r8b
	xorl	%r9d, %r9d
	cmpb	%r15b, 1(%rsi,%r13)
	sete	%r9b
	addq	%rbp, %r8
	addq	%r9, %r8
	addq	$2, %r13
	movq	%r8, %rbp
	cmpq	%r13, %r10
	jne	.LBB1_23
.LBB1_24:                               # %"block::bonding::degree_of.exit.i.i"
                                        #   in Loop: Header=BB1_8 Depth=1
	movl	$6, %r13d
	cmpq	$5, %r8
	ja	.LBB1_33
# %bb.25:                               # %join.5.i16.i.i.preheader
                                        #   in Loop: Header=BB1_8 Depth=1
	cmpq	$3, %r12
	jae	.LBB1_27
# %bb.26:                               #   in Loop: Header=BB1_8 Depth=1
	xorl	%r8d, %r8d
	xorl	%r15d, %r15d
	jmp	.LBB1_30
.LBB1_27:                               # %vector.ph
                                        #   in Loop: Header=BB1_8 Depth=1
	movq	-24(%rsp), %r12                 # 8-byte Reload
	andq	$-4, %r12
	leaq	(%r12,%r12), %r15
	movzbl	%r11b, %r8d
	movd	%r8d, %xmm0
	punpcklbw	%xmm0, %xmm0            # xmm0 = xmm0[0,0,1,1,2,2,3,3,4,4,5,5,6,6,7,7]
	pxor	%xmm1, %xmm1
	xorl	%r8d, %r8d
	pxor	%xmm2, %xmm2
	.p2align	4
.LBB1_28:                               # %vector.body
                                        #   Parent Loop BB1_8 Depth=1
                                        # =>  This Inner Loop Header: Depth=2
	movzbl	(%rsi,%r8,2), %r9d
	movzbl	2(%rsi,%r8,2), %ebp
	shll	$8, %ebp
	orl	%r9d, %ebp
	movd	%ebp, %xmm5
	movzbl	4(%rsi,%r8,2), %r9d
	movzbl	6(%rsi,%r8,2), %ebp
	shll	$8, %ebp
	orl	%r9d, %ebp
	movd	%ebp, %xmm6
	movzbl	1(%rsi,%r8,2), %r9d
	movzbl	3(%rsi,%r8,2), %ebp
	shll	$8, %ebp
	orl	%r9d, %ebp
	movd	%ebp, %xmm4
	movzbl	5(%rsi,%r8,2), %r9d
	movzbl	7(%rsi,%r8,2), %ebp
	shll	$8, %ebp
	orl	%r9d, %ebp
	movd	%ebp, %xmm3
	pcmpeqb	%xmm0, %xmm5
	punpcklbw	%xmm5, %xmm5            # xmm5 = xmm5[0,0,1,1,2,2,3,3,4,4,5,5,6,6,7,7]
	pshuflw	$212, %xmm5, %xmm5              # xmm5 = xmm5[0,1,1,3,4,5,6,7]
	pshufd	$212, %xmm5, %xmm5              # xmm5 = xmm5[0,1,1,3]
	movdqa	.LCPI1_0(%rip), %xmm7           # xmm7 = [1,1]
	pand	%xmm7, %xmm5
	paddq	%xmm2, %xmm5
	pcmpeqb	%xmm0, %xmm6
	punpcklbw	%xmm6, %xmm6            # xmm6 = xmm6[0,0,1,1,2,2,3,3,4,4,5,5,6,6,7,7]
	pshuflw	$212, %xmm6, %xmm2              # xmm2 = xmm6[0,1,1,3,4,5,6,7]
	pshufd	$212, %xmm2, %xmm6              # xmm6 = xmm2[0,1,1,3]
	pand	%xmm7, %xmm6
	paddq	%xmm1, %xmm6
	pcmpeqb	%xmm0, %xmm4
	punpcklbw	%xmm4, %xmm4            # xmm4 = xmm4[0,0,1,1,2,2,3,3,4,4,5,5,6,6,7,7]
	pshuflw	$212, %xmm4, %xmm1              # xmm1 = xmm4[0,1,1,3,4,5,6,7]
	pshufd	$212, %xmm1, %xmm2              # xmm2 = xmm1[0,1,1,3]
	pand	%xmm7, %xmm2
	paddq	%xmm5, %xmm2
	pcmpeqb	%xmm0, %xmm3
	punpcklbw	%xmm3, %xmm3            # xmm3 = xmm3[0,0,1,1,2,2,3,3,4,4,5,5,6,6,7,7]
	pshuflw	$212, %xmm3, %xmm1              # xmm1 = xmm3[0,1,1,3,4,5,6,7]
	pshufd	$212, %xmm1, %xmm1              # xmm1 = xmm1[0,1,1,3]
	pand	%xmm7, %xmm1
	paddq	%xmm6, %xmm1
	addq	$4, %r8
	cmpq	%r8, %rbx
	jne	.LBB1_28
# %bb.29:                               # %middle.block
                                        #   in Loop: Header=BB1_8 Depth=1
	paddq	%xmm2, %xmm1
	pshufd	$238, %xmm1, %xmm0              # xmm0 = xmm1[2,3,2,3]
	paddq	%xmm1, %xmm0
	movq	%xmm0, %r8
	cmpq	%r12, -24(%rsp)                 # 8-byte Folded Reload
	je	.LBB1_32
.LBB1_30:                               # %join.5.i16.i.i.preheader40
                                        #   in Loop: Header=BB1_8 Depth=1
	movq	%r8, %rbx
	.p2align	4
.LBB1_31:                               # %join.5.i16.i.i
                                        #   Parent Loop BB1_8 Depth=1
                                        # =>  This Inner Loop Header: Depth=2
	xorl	%r8d, %r8d
	cmpb	%r11b, (%rsi,%r15)
	sete	%r8b
	xorl	%r9d, %r9d
	cmpb	%r11b, 1(%rsi,%r15)
	sete	%r9b
	addq	%rbx, %r8
	addq	%r9, %r8
	addq	$2, %r15
	movq	%r8, %rbx
	cmpq	%r15, %r10
	jne	.LBB1_31
	jmp	.LBB1_32
.LBB1_11:
	movl	$4, %r13d
.LBB1_33:                               # %arm.6.i
	incq	%rcx
	movq	%r13, %rax
	movq	%rcx, %rdx
.LBB1_36:
	popq	%rbx
	popq	%r12
	popq	%r13
	popq	%r14
	popq	%r15
	popq	%rbp
	retq
.LBB1_35:
	xorl	%edx, %edx
	jmp	.LBB1_36
.Lfunc_end1:
	.size	"block::refusal", .Lfunc_end1-"block::refusal"
                                        # -- End function
	.section	.rodata.cst16,"aM",@progbits,16
	.p2align	4, 0x0                          # -- Begin function reach::summed
.LCPI2_0:
	.byte	0                               # 0x0
	.byte	0                               # 0x0
	.byte	0                               # 0x0
	.byte	0                               # 0x0
	.byte	0                               # 0x0
	.byte	0                               # 0x0
	.byte	0                               # 0x0
	.byte	0                               # 0x0
	.byte	1                               # 0x1
	.byte	0                               # 0x0
	.byte	0                               # 0x0
	.byte	0                               # 0x0
	.byte	0                               # 0x0
	.byte	0                               # 0x0
	.byte	0                               # 0x0
	.byte	0                               # 0x0
.LCPI2_1:
	.quad	2                               # 0x2
	.quad	2                               # 0x2
.LCPI2_2:
	.quad	1                               # 0x1
	.quad	1                               # 0x1
.LCPI2_3:
	.quad	4                               # 0x4
	.quad	4                               # 0x4
.LCPI2_4:
	.zero	16,85
.LCPI2_5:
	.zero	16,51
.LCPI2_6:
	.zero	16,15
	.section	".text.reach::summed","ax",@progbits
	.p2align	4
	.type	"reach::summed",@function
"reach::summed":                        # @"reach::summed"
# %bb.0:                                # %start
	pushq	%rbp
	pushq	%r15
	pushq	%r14
	pushq	%r13
	pushq	%r12
	pushq	%rbx
	subq	$1096, %rsp                     # imm = 0x448
	movq	%r9, %r12
	movq	%r8, %r13
	movq	%rcx, %r15
	movq	%rdx, 16(%rsp)                  # 8-byte Spill
	movq	%rsi, %rbx
	movq	%rdi, %r14
	leaq	584(%rsp), %rdi
	movl	$512, %edx                      # imm = 0x200
	xorl	%esi, %esi
	callq	memset@PLT
	leaq	72(%rsp), %rdi
	movl	$512, %edx                      # imm = 0x200
	xorl	%esi, %esi
	callq	memset@PLT
	movq	%rbx, %rsi
	movq	%rbx, %r10
	imulq	%rbx, %r10
	testq	%rbx, %rbx
	je	.LBB2_7
# %bb.1:                                # %join.5.i.preheader
	cmpq	$4, %rsi
	jae	.LBB2_4
# %bb.2:
	xorl	%eax, %eax
	jmp	.LBB2_3
.LBB2_4:                                # %vector.ph
	movq	%rsi, %rax
	andq	$-4, %rax
	movdqa	.LCPI2_0(%rip), %xmm0           # xmm0 = [0,0,0,0,0,0,0,0,1,0,0,0,0,0,0,0]
	xorl	%ecx, %ecx
	.p2align	4
.LBB2_5:                                # %vector.body
                                        # =>This Inner Loop Header: Depth=1
	movdqa	.LCPI2_1(%rip), %xmm1           # xmm1 = [2,2]
	paddq	%xmm0, %xmm1
	movupd	(%r13,%rcx,8), %xmm2
	movupd	16(%r13,%rcx,8), %xmm3
	movdqa	.LCPI2_2(%rip), %xmm4           # xmm4 = [1,1]
	movdqa	%xmm4, %xmm5
	psllq	%xmm0, %xmm5
	pshufd	$238, %xmm0, %xmm6              # xmm6 = xmm0[2,3,2,3]
	movdqa	%xmm4, %xmm7
	psllq	%xmm6, %xmm7
	movsd	%xmm5, %xmm7                    # xmm7 = xmm5[0],xmm7[1]
	orpd	%xmm2, %xmm7
	movdqa	%xmm4, %xmm2
	psllq	%xmm1, %xmm2
	pshufd	$238, %xmm1, %xmm1              # xmm1 = xmm1[2,3,2,3]
	psllq	%xmm1, %xmm4
	movsd	%xmm2, %xmm4                    # xmm4 = xmm2[0],xmm4[1]
	orpd	%xmm3, %xmm4
	movupd	%xmm7, 584(%rsp,%rcx,8)
	movupd	%xmm4, 600(%rsp,%rcx,8)
	movupd	%xmm7, 72(%rsp,%rcx,8)
	movupd	%xmm4, 88(%rsp,%rcx,8)
	addq	$4, %rcx
	paddq	.LCPI2_3(%rip), %xmm0
	cmpq	%rcx, %rax
	jne	.LBB2_5
	jmp	.LBB2_6
.LBB2_3:                                # %join.5.i
	movq	(%r13,%rax,8), %rcx
	btsq	%rax, %rcx
	movq	%rcx, 584(%rsp,%rax,8)
	movq	%rcx, 72(%rsp,%rax,8)
	incq	%rax
.LBB2_6:                                # %join.5.i
	cmpq	%rax, %rsi
	jne	.LBB2_3
.LBB2_7:                                # %"reach::with_neighbours.exit"
	leaq	(%r15,%rsi), %r9
	xorl	%ebx, %ebx
	testq	%r15, %r15
	setne	%bl
	cmpq	%r10, %r9
	jae	.LBB2_8
# %bb.9:                                # %join.9.lr.ph
	movq	%r13, 32(%rsp)                  # 8-byte Spill
	movq	%r14, (%rsp)                    # 8-byte Spill
	movq	1152(%rsp), %r14
	xorl	%r11d, %r11d
	movl	$64, %ecx
	subq	%rsi, %rcx
	cmovbq	%r11, %rcx
	movq	$-1, %rax
                                        # kill: def $cl killed $cl killed $rcx
	shrq	%cl, %rax
	movq	%rax, 48(%rsp)                  # 8-byte Spill
	movq	%r12, %r13
	andq	$-4, %r13
	movq	%r15, %rbp
	movq	%r15, 8(%rsp)                   # 8-byte Spill
	movq	%r15, %rdi
	movq	%rsi, 40(%rsp)                  # 8-byte Spill
	.p2align	4
.LBB2_10:                               # %join.9
                                        # =>This Loop Header: Depth=1
                                        #     Child Loop BB2_12 Depth 2
                                        #     Child Loop BB2_14 Depth 2
                                        #     Child Loop BB2_17 Depth 2
                                        #       Child Loop BB2_19 Depth 3
	movq	%rdi, 24(%rsp)                  # 8-byte Spill
	testb	$1, %bl
	leaq	584(%rsp), %rax
	leaq	72(%rsp), %rcx
	cmoveq	%rcx, %rax
	testq	%r12, %r12
	movq	48(%rsp), %r15                  # 8-byte Reload
	je	.LBB2_15
# %bb.11:                               # %join.5.i24.preheader
                                        #   in Loop: Header=BB2_10 Depth=1
	xorl	%ecx, %ecx
	cmpq	$4, %r12
	jb	.LBB2_14
	.p2align	4
.LBB2_12:                               # %vector.body19
                                        #   Parent Loop BB2_10 Depth=1
                                        # =>  This Inner Loop Header: Depth=2
	movdqu	(%rax,%rcx,8), %xmm2
	movdqu	16(%rax,%rcx,8), %xmm0
	movdqa	%xmm2, %xmm1
	psrlw	$1, %xmm1
	movdqa	.LCPI2_4(%rip), %xmm3           # xmm3 = [85,85,85,85,85,85,85,85,85,85,85,85,85,85,85,85]
	pand	%xmm3, %xmm1
	psubb	%xmm1, %xmm2
	movdqa	.LCPI2_5(%rip), %xmm4           # xmm4 = [51,51,51,51,51,51,51,51,51,51,51,51,51,51,51,51]
	movdqa	%xmm2, %xmm1
	pand	%xmm4, %xmm1
	psrlw	$2, %xmm2
	pand	%xmm4, %xmm2
	paddb	%xmm1, %xmm2
	movdqa	%xmm2, %xmm1
	psrlw	$4, %xmm1
	paddb	%xmm2, %xmm1
	movdqa	.LCPI2_6(%rip), %xmm2           # xmm2 = [15,15,15,15,15,15,15,15,15,15,15,15,15,15,15,15]
	pand	%xmm2, %xmm1
	pxor	%xmm5, %xmm5
	psadbw	%xmm5, %xmm1
	movdqa	%xmm0, %xmm6
	psrlw	$1, %xmm6
	pand	%xmm3, %xmm6
	psubb	%xmm6, %xmm0
	movdqa	%xmm0, %xmm3
	pand	%xmm4, %xmm3
	psrlw	$2, %xmm0
	pand	%xmm4, %xmm0
	paddb	%xmm3, %xmm0
	movdqa	%xmm0, %xmm3
	psrlw	$4, %xmm3
	paddb	%xmm0, %xmm3
	pand	%xmm2, %xmm3
	psadbw	%xmm5, %xmm3
	movdqu	(%r14,%rcx,8), %xmm0
	paddq	%xmm1, %xmm0
	movdqu	16(%r14,%rcx,8), %xmm1
	paddq	%xmm3, %xmm1
	movdqu	%xmm0, (%r14,%rcx,8)
	movdqu	%xmm1, 16(%r14,%rcx,8)
	addq	$4, %rcx
	cmpq	%rcx, %r13
	jne	.LBB2_12
# %bb.13:                               # %middle.block26
                                        #   in Loop: Header=BB2_10 Depth=1
	movq	%r13, %rcx
	cmpq	%r13, %r12
	je	.LBB2_15
	.p2align	4
.LBB2_14:                               # %join.5.i24
                                        #   Parent Loop BB2_10 Depth=1
                                        # =>  This Inner Loop Header: Depth=2
	movq	(%rax,%rcx,8), %rdx
	movq	%rdx, %r8
	shrq	%r8
	movabsq	$6148914691236517205, %rdi      # imm = 0x5555555555555555
	andq	%r8, %rdi
	subq	%rdi, %rdx
	movabsq	$3689348814741910323, %r8       # imm = 0x3333333333333333
	movq	%rdx, %rdi
	andq	%r8, %rdi
	shrq	$2, %rdx
	andq	%r8, %rdx
	addq	%rdi, %rdx
	movq	%rdx, %rdi
	shrq	$4, %rdi
	addq	%rdx, %rdi
	movabsq	$1085102592571150095, %rdx      # imm = 0xF0F0F0F0F0F0F0F
	andq	%rdi, %rdx
	movabsq	$72340172838076673, %rdi        # imm = 0x101010101010101
	imulq	%rdx, %rdi
	shrq	$56, %rdi
	addq	%rdi, (%r14,%rcx,8)
	incq	%rcx
	cmpq	%rcx, %r12
	jne	.LBB2_14
.LBB2_15:                               # %"reach::count.exit"
                                        #   in Loop: Header=BB2_10 Depth=1
	movq	%r10, %rcx
	movq	%r9, 64(%rsp)                   # 8-byte Spill
	subq	%r9, %rcx
	cmpq	%rsi, %rcx
	jbe	.LBB2_16
.LBB2_24:                               # %after.10
                                        #   in Loop: Header=BB2_10 Depth=1
	movq	%rbp, %r15
	movq	%r11, 56(%rsp)                  # 8-byte Spill
	movq	%r10, %rbp
	testb	$1, %bl
	jne	.LBB2_26
# %bb.25:                               # %then.1.i
                                        #   in Loop: Header=BB2_10 Depth=1
	leaq	72(%rsp), %rdi
	leaq	584(%rsp), %r8
	jmp	.LBB2_27
	.p2align	4
.LBB2_16:                               # %join.5.i27.preheader
                                        #   in Loop: Header=BB2_10 Depth=1
	xorl	%edx, %edx
	jmp	.LBB2_17
	.p2align	4
.LBB2_21:                               # %join.8.i
                                        #   in Loop: Header=BB2_17 Depth=2
	incq	%rdx
	cmpq	%rsi, %rdx
	je	.LBB2_22
.LBB2_17:                               # %join.5.i27
                                        #   Parent Loop BB2_10 Depth=1
                                        # =>  This Loop Header: Depth=2
                                        #       Child Loop BB2_19 Depth 3
	movq	(%rax,%rdx,8), %r9
	cmpq	%r9, %r15
	je	.LBB2_21
# %bb.18:                               # %join.5.i.preheader.i
                                        #   in Loop: Header=BB2_17 Depth=2
	movq	32(%rsp), %rdi                  # 8-byte Reload
	movq	(%rdi,%rdx,8), %rdi
	xorq	%r15, %r9
	.p2align	4
.LBB2_19:                               # %join.5.i.i
                                        #   Parent Loop BB2_10 Depth=1
                                        #     Parent Loop BB2_17 Depth=2
                                        # =>    This Inner Loop Header: Depth=3
	rep		bsfq	%r9, %r8
	testq	%rdi, (%rax,%r8,8)
	je	.LBB2_24
# %bb.20:                               # %join.8.i.i
                                        #   in Loop: Header=BB2_19 Depth=3
	leaq	-1(%r9), %r8
	andq	%r8, %r9
	jne	.LBB2_19
	jmp	.LBB2_21
	.p2align	4
.LBB2_26:                               # %join.3.i
                                        #   in Loop: Header=BB2_10 Depth=1
	leaq	584(%rsp), %rdi
	leaq	72(%rsp), %r8
.LBB2_27:                               # %"reach::next_level.exit"
                                        #   in Loop: Header=BB2_10 Depth=1
	movq	16(%rsp), %rdx                  # 8-byte Reload
	movq	8(%rsp), %rcx                   # 8-byte Reload
	callq	"reach::spread"
	movq	%rax, %rcx
	subq	64(%rsp), %rcx                  # 8-byte Folded Reload
	movq	24(%rsp), %rdi                  # 8-byte Reload
	je	.LBB2_28
# %bb.29:                               # %join.21
                                        #   in Loop: Header=BB2_10 Depth=1
	movq	%rbp, %r10
	movl	%ebx, %edx
	incq	%rbx
	movq	%rcx, %rsi
	imulq	%rbx, %rsi
	addq	%rsi, %rdi
	xorl	%esi, %esi
	testb	$1, %dl
	movl	$0, %edx
	cmoveq	%rbx, %rdx
	imulq	%rcx, %rdx
	movq	%r15, %rbp
	addq	%rdx, %rbp
	cmpq	$3, %rbx
	cmoveq	%rcx, %rsi
	movq	56(%rsp), %r11                  # 8-byte Reload
	addq	%rsi, %r11
	movq	%rax, %r9
	cmpq	%r10, %rax
	movq	40(%rsp), %rsi                  # 8-byte Reload
	jb	.LBB2_10
# %bb.30:                               # %after.5.loopexit
	shrq	%r11
	movq	%rdi, %r15
	movq	(%rsp), %r14                    # 8-byte Reload
	jmp	.LBB2_31
.LBB2_8:
	xorl	%r11d, %r11d
	movq	%r15, %rbp
.LBB2_31:                               # %after.5
	shrq	%r15
	shrq	%rbp
	movq	$0, (%r14)
	movq	%rsi, 8(%r14)
	movq	%r15, 16(%r14)
	subq	%rbp, %r15
	movq	%r15, 24(%r14)
	movq	%rbp, 32(%r14)
	movq	%r11, 40(%r14)
	movq	%rbx, 48(%r14)
	jmp	.LBB2_23
.LBB2_22:                               # %then.14
	movq	%rbx, %rax
	incq	%rax
	movq	%rcx, %rdx
	imulq	%rax, %rdx
	addq	24(%rsp), %rdx                  # 8-byte Folded Reload
	xorl	%r8d, %r8d
	testb	$1, %bl
	movl	$0, %edi
	cmoveq	%rax, %rdi
	imulq	%rcx, %rdi
	addq	%rbp, %rdi
	cmpq	$3, %rax
	cmoveq	%rcx, %r8
	addq	%r11, %r8
	shrq	%rdx
	shrq	%rdi
	shrq	%r8
	movq	(%rsp), %rcx                    # 8-byte Reload
	movq	$0, (%rcx)
	movq	%rsi, 8(%rcx)
	movq	%rdx, 16(%rcx)
	subq	%rdi, %rdx
	movq	%rdx, 24(%rcx)
	movq	%rdi, 32(%rcx)
	movq	%r8, 40(%rcx)
	movq	%rax, 48(%rcx)
	jmp	.LBB2_23
.LBB2_28:                               # %then.19
	movq	(%rsp), %rax                    # 8-byte Reload
	movq	$1, (%rax)
	movq	$7, 8(%rax)
	pxor	%xmm0, %xmm0
	movdqu	%xmm0, 16(%rax)
	movdqu	%xmm0, 32(%rax)
	movq	$0, 48(%rax)
.LBB2_23:                               # %common.ret
	addq	$1096, %rsp                     # imm = 0x448
	popq	%rbx
	popq	%r12
	popq	%r13
	popq	%r14
	popq	%r15
	popq	%rbp
	retq
.Lfunc_end2:
	.size	"reach::summed", .Lfunc_end2-"reach::summed"
                                        # -- End function
	.section	.rodata.cst16,"aM",@progbits,16
	.p2align	4, 0x0                          # -- Begin function reach::spread
.LCPI3_0:
	.short	0                               # 0x0
	.short	0                               # 0x0
	.short	65535                           # 0xffff
	.short	0                               # 0x0
	.short	0                               # 0x0
	.short	0                               # 0x0
	.short	65535                           # 0xffff
	.short	0                               # 0x0
.LCPI3_1:
	.short	0                               # 0x0
	.short	65535                           # 0xffff
	.short	0                               # 0x0
	.short	0                               # 0x0
	.short	0                               # 0x0
	.short	65535                           # 0xffff
	.short	0                               # 0x0
	.short	0                               # 0x0
.LCPI3_2:
	.short	65535                           # 0xffff
	.short	0                               # 0x0
	.short	0                               # 0x0
	.short	0                               # 0x0
	.short	65535                           # 0xffff
	.short	0                               # 0x0
	.short	0                               # 0x0
	.short	0                               # 0x0
.LCPI3_3:
	.zero	16,85
.LCPI3_4:
	.zero	16,51
.LCPI3_5:
	.zero	16,15
	.section	".text.reach::spread","ax",@progbits
	.p2align	4
	.type	"reach::spread",@function
"reach::spread":                        # @"reach::spread"
# %bb.0:                                # %start
	pushq	%r15
	pushq	%r14
	pushq	%r13
	pushq	%r12
	pushq	%rbx
	movq	%rcx, %rax
	shrq	%rax
	shrq	$2, %rcx
	subq	%rcx, %rax
	je	.LBB3_3
# %bb.1:                                # %join.5.preheader
	leaq	(%rdx,%rcx,2), %rcx
	incq	%rcx
	xorl	%r9d, %r9d
	.p2align	4
.LBB3_2:                                # %join.5
                                        # =>This Inner Loop Header: Depth=1
	movzbl	(%rdx,%r9,2), %r10d
	movzbl	1(%rdx,%r9,2), %r11d
	movq	-8(%rdi,%r11,8), %rbx
	orq	%rbx, -8(%r8,%r10,8)
	movq	-8(%rdi,%r10,8), %r10
	orq	%r10, -8(%r8,%r11,8)
	movzbl	-1(%rcx,%r9,2), %r10d
	movzbl	(%rcx,%r9,2), %r11d
	movq	-8(%rdi,%r11,8), %rbx
	orq	%rbx, -8(%r8,%r10,8)
	movq	-8(%rdi,%r10,8), %r10
	orq	%r10, -8(%r8,%r11,8)
	incq	%r9
	cmpq	%r9, %rax
	jne	.LBB3_2
.LBB3_3:                                # %after.1
	movq	%rsi, %r10
	shrq	$2, %r10
	xorl	%r11d, %r11d
	cmpq	$17, %rsi
	cmovaeq	%r11, %r10
	movabsq	$6148914691236517205, %rcx      # imm = 0x5555555555555555
	movabsq	$3689348814741910323, %rdx      # imm = 0x3333333333333333
	movabsq	$1085102592571150095, %rdi      # imm = 0xF0F0F0F0F0F0F0F
	movabsq	$72340172838076673, %r9         # imm = 0x101010101010101
	testq	%r10, %r10
	je	.LBB3_11
# %bb.4:                                # %join.5.i.i.preheader
	cmpq	$4, %r10
	jae	.LBB3_6
# %bb.5:
	xorl	%r11d, %r11d
	xorl	%eax, %eax
	jmp	.LBB3_9
.LBB3_6:                                # %vector.ph
	movq	%r10, %rax
	andq	$-4, %rax
	leaq	120(%r8), %r11
	pxor	%xmm1, %xmm1
	movq	%rax, %rbx
	pxor	%xmm2, %xmm2
	pxor	%xmm0, %xmm0
	.p2align	4
.LBB3_7:                                # %vector.body
                                        # =>This Inner Loop Header: Depth=1
	movq	-88(%r11), %xmm3                # xmm3 = mem[0],zero
	movq	-120(%r11), %xmm4               # xmm4 = mem[0],zero
	punpcklqdq	%xmm3, %xmm4            # xmm4 = xmm4[0],xmm3[0]
	movq	-24(%r11), %xmm5                # xmm5 = mem[0],zero
	movq	-56(%r11), %xmm3                # xmm3 = mem[0],zero
	punpcklqdq	%xmm5, %xmm3            # xmm3 = xmm3[0],xmm5[0]
	movq	-80(%r11), %xmm5                # xmm5 = mem[0],zero
	movq	-112(%r11), %xmm6               # xmm6 = mem[0],zero
	punpcklqdq	%xmm5, %xmm6            # xmm6 = xmm6[0],xmm5[0]
	movq	-16(%r11), %xmm7                # xmm7 = mem[0],zero
	movq	-48(%r11), %xmm5                # xmm5 = mem[0],zero
	punpcklqdq	%xmm7, %xmm5            # xmm5 = xmm5[0],xmm7[0]
	movq	-72(%r11), %xmm7                # xmm7 = mem[0],zero
	movq	-104(%r11), %xmm8               # xmm8 = mem[0],zero
	punpcklqdq	%xmm7, %xmm8            # xmm8 = xmm8[0],xmm7[0]
	movq	-8(%r11), %xmm9                 # xmm9 = mem[0],zero
	movq	-40(%r11), %xmm7                # xmm7 = mem[0],zero
	punpcklqdq	%xmm9, %xmm7            # xmm7 = xmm7[0],xmm9[0]
	movq	-64(%r11), %xmm9                # xmm9 = mem[0],zero
	movq	-96(%r11), %xmm10               # xmm10 = mem[0],zero
	punpcklqdq	%xmm9, %xmm10           # xmm10 = xmm10[0],xmm9[0]
	movq	(%r11), %xmm9                   # xmm9 = mem[0],zero
	movq	-32(%r11), %xmm11               # xmm11 = mem[0],zero
	punpcklqdq	%xmm9, %xmm11           # xmm11 = xmm11[0],xmm9[0]
	psllq	$48, %xmm10
	psllq	$48, %xmm11
	psllq	$32, %xmm8
	psllq	$32, %xmm7
	movdqa	.LCPI3_0(%rip), %xmm9           # xmm9 = [0,0,65535,0,0,0,65535,0]
	pand	%xmm9, %xmm8
	por	%xmm10, %xmm8
	pand	%xmm9, %xmm7
	por	%xmm11, %xmm7
	psllq	$16, %xmm6
	psllq	$16, %xmm5
	movdqa	.LCPI3_1(%rip), %xmm9           # xmm9 = [0,65535,0,0,0,65535,0,0]
	pand	%xmm9, %xmm6
	pand	%xmm9, %xmm5
	movdqa	.LCPI3_2(%rip), %xmm9           # xmm9 = [65535,0,0,0,65535,0,0,0]
	pand	%xmm9, %xmm4
	por	%xmm6, %xmm4
	por	%xmm8, %xmm4
	pand	%xmm9, %xmm3
	por	%xmm5, %xmm3
	por	%xmm7, %xmm3
	movdqa	%xmm4, %xmm5
	psrlw	$1, %xmm5
	movdqa	.LCPI3_3(%rip), %xmm6           # xmm6 = [85,85,85,85,85,85,85,85,85,85,85,85,85,85,85,85]
	pand	%xmm6, %xmm5
	psubb	%xmm5, %xmm4
	movdqa	.LCPI3_4(%rip), %xmm5           # xmm5 = [51,51,51,51,51,51,51,51,51,51,51,51,51,51,51,51]
	movdqa	%xmm4, %xmm7
	pand	%xmm5, %xmm7
	psrlw	$2, %xmm4
	pand	%xmm5, %xmm4
	paddb	%xmm7, %xmm4
	movdqa	%xmm4, %xmm7
	psrlw	$4, %xmm7
	paddb	%xmm4, %xmm7
	movdqa	.LCPI3_5(%rip), %xmm4           # xmm4 = [15,15,15,15,15,15,15,15,15,15,15,15,15,15,15,15]
	pand	%xmm4, %xmm7
	psadbw	%xmm1, %xmm7
	paddq	%xmm7, %xmm2
	movdqa	%xmm3, %xmm7
	psrlw	$1, %xmm7
	pand	%xmm6, %xmm7
	psubb	%xmm7, %xmm3
	movdqa	%xmm3, %xmm6
	pand	%xmm5, %xmm6
	psrlw	$2, %xmm3
	pand	%xmm5, %xmm3
	paddb	%xmm6, %xmm3
	movdqa	%xmm3, %xmm5
	psrlw	$4, %xmm5
	paddb	%xmm3, %xmm5
	pand	%xmm4, %xmm5
	psadbw	%xmm1, %xmm5
	paddq	%xmm5, %xmm0
	subq	$-128, %r11
	addq	$-4, %rbx
	jne	.LBB3_7
# %bb.8:                                # %middle.block
	paddq	%xmm2, %xmm0
	pshufd	$238, %xmm0, %xmm1              # xmm1 = xmm0[2,3,2,3]
	paddq	%xmm0, %xmm1
	movq	%xmm1, %r11
	cmpq	%rax, %r10
	je	.LBB3_11
.LBB3_9:                                # %join.5.i.i.preheader20
	movq	%r10, %rbx
	subq	%rax, %rbx
	shlq	$5, %rax
	addq	%r8, %rax
	addq	$24, %rax
	.p2align	4
.LBB3_10:                               # %join.5.i.i
                                        # =>This Inner Loop Header: Depth=1
	movzwl	-24(%rax), %r15d
	movl	-16(%rax), %r14d
	movq	-8(%rax), %r12
	movq	(%rax), %r13
	shlq	$48, %r13
	movzwl	%r12w, %r12d
	shlq	$32, %r12
	orq	%r13, %r12
	shll	$16, %r14d
	orq	%r12, %r14
	orq	%r15, %r14
	movq	%r14, %r15
	shrq	%r15
	andq	%rcx, %r15
	subq	%r15, %r14
	movq	%r14, %r15
	andq	%rdx, %r15
	shrq	$2, %r14
	andq	%rdx, %r14
	addq	%r15, %r14
	movq	%r14, %r15
	shrq	$4, %r15
	addq	%r14, %r15
	andq	%rdi, %r15
	imulq	%r9, %r15
	shrq	$56, %r15
	addq	%r15, %r11
	addq	$32, %rax
	decq	%rbx
	jne	.LBB3_10
.LBB3_11:                               # %"reach::by_fours.exit.i"
	shlq	$2, %r10
	movq	%rsi, %rbx
	subq	%r10, %rbx
	jbe	.LBB3_12
# %bb.13:                               # %join.5.i5.i.preheader
	cmpq	$4, %rbx
	jae	.LBB3_15
# %bb.14:
	xorl	%eax, %eax
	movq	%r10, %rbx
	jmp	.LBB3_18
.LBB3_12:
	xorl	%eax, %eax
	jmp	.LBB3_19
.LBB3_15:                               # %vector.ph4
	movl	%esi, %r14d
	andl	$3, %r14d
	subq	%r14, %rbx
	addq	%r10, %rbx
	pxor	%xmm2, %xmm2
	pxor	%xmm1, %xmm1
	pxor	%xmm0, %xmm0
	.p2align	4
.LBB3_16:                               # %vector.body7
                                        # =>This Inner Loop Header: Depth=1
	movdqu	(%r8,%r10,8), %xmm4
	movdqu	16(%r8,%r10,8), %xmm3
	movdqa	%xmm4, %xmm5
	psrlw	$1, %xmm5
	movdqa	.LCPI3_3(%rip), %xmm6           # xmm6 = [85,85,85,85,85,85,85,85,85,85,85,85,85,85,85,85]
	pand	%xmm6, %xmm5
	psubb	%xmm5, %xmm4
	movdqa	.LCPI3_4(%rip), %xmm5           # xmm5 = [51,51,51,51,51,51,51,51,51,51,51,51,51,51,51,51]
	movdqa	%xmm4, %xmm7
	pand	%xmm5, %xmm7
	psrlw	$2, %xmm4
	pand	%xmm5, %xmm4
	paddb	%xmm7, %xmm4
	movdqa	%xmm4, %xmm7
	psrlw	$4, %xmm7
	paddb	%xmm4, %xmm7
	movdqa	.LCPI3_5(%rip), %xmm4           # xmm4 = [15,15,15,15,15,15,15,15,15,15,15,15,15,15,15,15]
	pand	%xmm4, %xmm7
	psadbw	%xmm2, %xmm7
	paddq	%xmm7, %xmm1
	movdqa	%xmm3, %xmm7
	psrlw	$1, %xmm7
	pand	%xmm6, %xmm7
	psubb	%xmm7, %xmm3
	movdqa	%xmm3, %xmm6
	pand	%xmm5, %xmm6
	psrlw	$2, %xmm3
	pand	%xmm5, %xmm3
	paddb	%xmm6, %xmm3
	movdqa	%xmm3, %xmm5
	psrlw	$4, %xmm5
	paddb	%xmm3, %xmm5
	pand	%xmm4, %xmm5
	psadbw	%xmm2, %xmm5
	paddq	%xmm5, %xmm0
	addq	$4, %r10
	cmpq	%r10, %rbx
	jne	.LBB3_16
# %bb.17:                               # %middle.block13
	paddq	%xmm1, %xmm0
	pshufd	$238, %xmm0, %xmm1              # xmm1 = xmm0[2,3,2,3]
	paddq	%xmm0, %xmm1
	movq	%xmm1, %rax
	testq	%r14, %r14
	je	.LBB3_19
	.p2align	4
.LBB3_18:                               # %join.5.i5.i
                                        # =>This Inner Loop Header: Depth=1
	movq	(%r8,%rbx,8), %r10
	movq	%r10, %r14
	shrq	%r14
	andq	%rcx, %r14
	subq	%r14, %r10
	movq	%r10, %r14
	andq	%rdx, %r14
	shrq	$2, %r10
	andq	%rdx, %r10
	addq	%r14, %r10
	movq	%r10, %r14
	shrq	$4, %r14
	addq	%r10, %r14
	andq	%rdi, %r14
	imulq	%r9, %r14
	shrq	$56, %r14
	addq	%r14, %rax
	incq	%rbx
	cmpq	%rbx, %rsi
	jne	.LBB3_18
.LBB3_19:                               # %"reach::together.exit"
	addq	%r11, %rax
	popq	%rbx
	popq	%r12
	popq	%r13
	popq	%r14
	popq	%r15
	retq
.Lfunc_end3:
	.size	"reach::spread", .Lfunc_end3-"reach::spread"
                                        # -- End function
	.section	.rodata.cst16,"aM",@progbits,16
	.p2align	4, 0x0                          # -- Begin function block::admit
.LCPI4_0:
	.zero	16,85
.LCPI4_1:
	.zero	16,51
.LCPI4_2:
	.zero	16,15
	.section	".text.block::admit","ax",@progbits
	.p2align	4
	.type	"block::admit",@function
"block::admit":                         # @"block::admit"
# %bb.0:                                # %start
	xorl	%eax, %eax
	cmpq	$384, %rdx                      # imm = 0x180
	ja	.LBB4_24
# %bb.1:                                # %start
	movq	%rcx, %r8
	leaq	-65(%rdi), %rcx
	cmpq	$-64, %rcx
	jb	.LBB4_24
# %bb.2:                                # %start
	movl	%edx, %ecx
	andl	$1, %ecx
	jne	.LBB4_24
# %bb.3:                                # %after.1.i
	pushq	%rbp
	pushq	%r15
	pushq	%r14
	pushq	%r13
	pushq	%r12
	pushq	%rbx
	movb	$1, %r11b
	testq	%rdx, %rdx
	je	.LBB4_4
# %bb.5:                                # %join.5.i.i.preheader
	movq	%rdx, %rbx
	shrq	%rbx
	movl	$1, %r10d
	xorl	%r14d, %r14d
	.p2align	4
.LBB4_6:                                # %join.5.i.i
                                        # =>This Inner Loop Header: Depth=1
	movzbl	(%rsi,%r14,2), %r15d
	leaq	-1(%r15), %rax
	cmpq	%rdi, %rax
	jae	.LBB4_7
# %bb.8:                                # %else.9.i.i
                                        #   in Loop: Header=BB4_6 Depth=1
	movzbl	1(%rsi,%r14,2), %r12d
	leaq	-1(%r12), %r9
	cmpq	%rdi, %r9
	jae	.LBB4_7
# %bb.9:                                # %after.6.i.i
                                        #   in Loop: Header=BB4_6 Depth=1
	movl	$1, %r13d
	movl	$1, %ebp
	movl	%eax, %ecx
	shlq	%cl, %rbp
	movl	%r9d, %ecx
	shlq	%cl, %r13
	orq	%r13, -8(%r8,%r15,8)
	orq	%rbp, -8(%r8,%r12,8)
	btsq	%rax, %r13
	movq	%r13, %rax
	andq	%r10, %rax
	cmovneq	%r13, %rax
	orq	%rax, %r10
	incq	%r14
	cmpq	%r14, %rbx
	jne	.LBB4_6
	jmp	.LBB4_10
.LBB4_7:
	xorl	%r10d, %r10d
	xorl	%r11d, %r11d
.LBB4_10:                               # %"block::bonding::sketched.exit.i"
	cmpq	$4, %rdi
	jae	.LBB4_13
.LBB4_11:
	xorl	%ecx, %ecx
	xorl	%esi, %esi
	xorl	%eax, %eax
	jmp	.LBB4_12
.LBB4_4:
	movl	$1, %r10d
	cmpq	$4, %rdi
	jb	.LBB4_11
.LBB4_13:                               # %vector.ph
	movl	%edi, %eax
	andl	$124, %eax
	pxor	%xmm3, %xmm3
	xorl	%ecx, %ecx
	pxor	%xmm4, %xmm4
	pxor	%xmm2, %xmm2
	pxor	%xmm1, %xmm1
	pxor	%xmm0, %xmm0
	.p2align	4
.LBB4_14:                               # %vector.body
                                        # =>This Inner Loop Header: Depth=1
	movdqu	(%r8,%rcx,8), %xmm7
	movdqu	16(%r8,%rcx,8), %xmm5
	movdqa	%xmm7, %xmm6
	psrlw	$1, %xmm6
	movdqa	.LCPI4_0(%rip), %xmm8           # xmm8 = [85,85,85,85,85,85,85,85,85,85,85,85,85,85,85,85]
	pand	%xmm8, %xmm6
	psubb	%xmm6, %xmm7
	movdqa	.LCPI4_1(%rip), %xmm9           # xmm9 = [51,51,51,51,51,51,51,51,51,51,51,51,51,51,51,51]
	movdqa	%xmm7, %xmm6
	pand	%xmm9, %xmm6
	psrlw	$2, %xmm7
	pand	%xmm9, %xmm7
	paddb	%xmm6, %xmm7
	movdqa	%xmm7, %xmm6
	psrlw	$4, %xmm6
	paddb	%xmm7, %xmm6
	movdqa	.LCPI4_2(%rip), %xmm7           # xmm7 = [15,15,15,15,15,15,15,15,15,15,15,15,15,15,15,15]
	pand	%xmm7, %xmm6
	psadbw	%xmm3, %xmm6
	movdqa	%xmm5, %xmm10
	psrlw	$1, %xmm10
	pand	%xmm8, %xmm10
	psubb	%xmm10, %xmm5
	movdqa	%xmm5, %xmm8
	pand	%xmm9, %xmm8
	psrlw	$2, %xmm5
	pand	%xmm9, %xmm5
	paddb	%xmm8, %xmm5
	movdqa	%xmm5, %xmm8
	psrlw	$4, %xmm8
	paddb	%xmm5, %xmm8
	pand	%xmm7, %xmm8
	psadbw	%xmm3, %xmm8
	paddq	%xmm6, %xmm4
	paddq	%xmm8, %xmm2
	pcmpeqd	%xmm5, %xmm5
	psubq	%xmm5, %xmm6
	por	%xmm6, %xmm1
	psubq	%xmm5, %xmm8
	por	%xmm8, %xmm0
	addq	$4, %rcx
	cmpq	%rcx, %rax
	jne	.LBB4_14
# %bb.15:                               # %middle.block
	paddq	%xmm4, %xmm2
	pshufd	$238, %xmm2, %xmm3              # xmm3 = xmm2[2,3,2,3]
	paddq	%xmm2, %xmm3
	movq	%xmm3, %rcx
	por	%xmm1, %xmm0
	pshufd	$238, %xmm0, %xmm1              # xmm1 = xmm0[2,3,2,3]
	por	%xmm0, %xmm1
	movq	%xmm1, %rsi
	jmp	.LBB4_16
.LBB4_12:                               # %join.5.i11.i
	movq	(%r8,%rax,8), %r9
	movq	%r9, %rbx
	shrq	%rbx
	movabsq	$6148914691236517205, %r14      # imm = 0x5555555555555555
	andq	%rbx, %r14
	subq	%r14, %r9
	movabsq	$3689348814741910323, %rbx      # imm = 0x3333333333333333
	movq	%r9, %r14
	andq	%rbx, %r14
	shrq	$2, %r9
	andq	%rbx, %r9
	addq	%r14, %r9
	movq	%r9, %rbx
	shrq	$4, %rbx
	addq	%r9, %rbx
	movabsq	$1085102592571150095, %r9       # imm = 0xF0F0F0F0F0F0F0F
	andq	%rbx, %r9
	movabsq	$72340172838076673, %rbx        # imm = 0x101010101010101
	imulq	%r9, %rbx
	shrq	$56, %rbx
	addq	%rbx, %rcx
	incq	%rbx
	orq	%rbx, %rsi
	incq	%rax
.LBB4_16:                               # %join.5.i11.i
	cmpq	%rax, %rdi
	jne	.LBB4_12
# %bb.17:                               # %"block::draw.exit"
	cmpq	%rdx, %rcx
	sete	%al
	andb	%al, %r11b
	xorl	%eax, %eax
	cmpb	$1, %r11b
	jne	.LBB4_23
# %bb.18:                               # %"block::draw.exit"
	cmpq	$8, %rsi
	jae	.LBB4_23
# %bb.19:                               # %join.3
	xorl	%ecx, %ecx
	movl	$64, %eax
	subq	%rdi, %rax
	cmovaeq	%rax, %rcx
	movq	$-1, %rsi
                                        # kill: def $cl killed $cl killed $rcx
	shrq	%cl, %rsi
	movb	$1, %al
	cmpq	%rsi, %r10
	je	.LBB4_23
# %bb.20:                               # %join.6
	andq	$-2, %rsi
	movl	$1, %ecx
	xorl	%eax, %eax
	.p2align	4
.LBB4_21:                               # %join.5.i.i6
                                        # =>This Inner Loop Header: Depth=1
	movq	%rsi, %rdx
	rep		bsfq	%rcx, %rsi
	leaq	-1(%rcx), %r9
	andq	%rcx, %r9
	orq	(%r8,%rsi,8), %rax
	movq	%rax, %rcx
	andq	%rdx, %rcx
	xorl	%edi, %edi
	testq	%r9, %r9
	cmoveq	%r9, %rax
	cmoveq	%rcx, %rdi
	cmovneq	%r9, %rcx
	movq	%rdi, %rsi
	xorq	%rdx, %rsi
	testq	%rcx, %rcx
	jne	.LBB4_21
# %bb.22:                               # %"block::search::connected.exit"
	cmpq	%rdi, %rdx
	sete	%al
.LBB4_23:
	popq	%rbx
	popq	%r12
	popq	%r13
	popq	%r14
	popq	%r15
	popq	%rbp
.LBB4_24:                               # %common.ret
                                        # kill: def $al killed $al killed $eax
	retq
.Lfunc_end4:
	.size	"block::admit", .Lfunc_end4-"block::admit"
                                        # -- End function
	.section	".text.compose::fields","ax",@progbits
	.p2align	4                               # -- Begin function compose::fields
	.type	"compose::fields",@function
"compose::fields":                      # @"compose::fields"
# %bb.0:                                # %start
	pushq	%rbp
	pushq	%r15
	pushq	%r14
	pushq	%r12
	pushq	%rbx
	subq	$3072, %rsp                     # imm = 0xC00
	movq	$0, (%rsp)
	subq	$3072, %rsp                     # imm = 0xC00
	movq	$0, (%rsp)
	subq	$2432, %rsp                     # imm = 0x980
	movl	%ecx, %ebp
	movq	%rdx, %r14
	movq	%rsi, %r15
	movq	%rdi, %rbx
	xorl	%eax, %eax
	xorl	%ecx, %ecx
	jmp	.LBB5_1
	.p2align	4
.LBB5_6:                                #   in Loop: Header=BB5_1 Depth=1
	xorl	%edx, %edx
.LBB5_9:                                # %"records::le16_at.exit21.i"
                                        #   in Loop: Header=BB5_1 Depth=1
	addq	$4, %rcx
	movzwl	%dx, %edx
	addq	%rdx, %rcx
	incq	%rax
	cmpq	$16, %rax
	je	.LBB5_10
.LBB5_1:                                # %join.5.i
                                        # =>This Inner Loop Header: Depth=1
	leaq	2(%rcx), %rdx
	cmpq	%r14, %rdx
	jae	.LBB5_13
# %bb.2:                                # %"records::byte_at.exit.i.i"
                                        #   in Loop: Header=BB5_1 Depth=1
	movzbl	2(%r15,%rcx), %edx
	leaq	3(%rcx), %rsi
	cmpq	%r14, %rsi
	jae	.LBB5_4
# %bb.3:                                # %then.1.i6.i.i
                                        #   in Loop: Header=BB5_1 Depth=1
	movzbl	(%r15,%rsi), %esi
	shll	$8, %esi
	movzwl	%dx, %edx
	orl	%esi, %edx
.LBB5_4:                                # %"records::le16_at.exit.i"
                                        #   in Loop: Header=BB5_1 Depth=1
	cmpw	$1, %dx
	jne	.LBB5_13
# %bb.5:                                # %join.8.i
                                        #   in Loop: Header=BB5_1 Depth=1
	cmpq	%r14, %rcx
	jae	.LBB5_6
# %bb.7:                                # %"records::byte_at.exit.i12.i"
                                        #   in Loop: Header=BB5_1 Depth=1
	movzbl	(%r15,%rcx), %edx
	leaq	1(%rcx), %rsi
	cmpq	%r14, %rsi
	jae	.LBB5_9
# %bb.8:                                # %then.1.i6.i18.i
                                        #   in Loop: Header=BB5_1 Depth=1
	movzbl	(%r15,%rsi), %esi
	shll	$8, %esi
	movzwl	%dx, %edx
	orl	%esi, %edx
	jmp	.LBB5_9
.LBB5_13:                               # %"deck::heads.exit"
	cmpq	$3, %rax
	jae	.LBB5_14
# %bb.11:                               # %then.1
	leaq	128(%rsp), %r12
	movl	$1056, %edx                     # imm = 0x420
	movq	%r12, %rdi
	xorl	%esi, %esi
	callq	memset@PLT
	movzbl	%bpl, %ecx
	leaq	64(%rsp), %rdi
	movl	$1056, %r9d                     # imm = 0x420
	jmp	.LBB5_12
.LBB5_14:                               # %join.3
	cmpq	$6, %rax
	ja	.LBB5_10
# %bb.15:                               # %then.4
	leaq	128(%rsp), %r12
	movl	$3168, %edx                     # imm = 0xC60
	movq	%r12, %rdi
	xorl	%esi, %esi
	callq	memset@PLT
	movzbl	%bpl, %ecx
	leaq	64(%rsp), %rdi
	movl	$3168, %r9d                     # imm = 0xC60
	jmp	.LBB5_12
.LBB5_10:                               # %join.6
	leaq	128(%rsp), %r12
	movl	$8448, %edx                     # imm = 0x2100
	movq	%r12, %rdi
	xorl	%esi, %esi
	callq	memset@PLT
	movzbl	%bpl, %ecx
	leaq	64(%rsp), %rdi
	movl	$8448, %r9d                     # imm = 0x2100
.LBB5_12:                               # %common.ret
	movq	%r15, %rsi
	movq	%r14, %rdx
	movq	%r12, %r8
	callq	"compose::in_book"
	movzbl	64(%rsp), %eax
	movups	72(%rsp), %xmm0
	movups	88(%rsp), %xmm1
	movups	104(%rsp), %xmm2
	movaps	%xmm0, (%rsp)
	movaps	%xmm1, 16(%rsp)
	movaps	%xmm2, 32(%rsp)
	movq	120(%rsp), %rcx
	movq	%rcx, 48(%rsp)
	movq	%rax, (%rbx)
	movaps	(%rsp), %xmm0
	movaps	16(%rsp), %xmm1
	movaps	32(%rsp), %xmm2
	movups	%xmm0, 8(%rbx)
	movups	%xmm1, 24(%rbx)
	movups	%xmm2, 40(%rbx)
	movq	48(%rsp), %rax
	movq	%rax, 56(%rbx)
	addq	$8576, %rsp                     # imm = 0x2180
	popq	%rbx
	popq	%r12
	popq	%r14
	popq	%r15
	popq	%rbp
	retq
.Lfunc_end5:
	.size	"compose::fields", .Lfunc_end5-"compose::fields"
                                        # -- End function
	.section	".text.compose::in_book","ax",@progbits
	.p2align	4                               # -- Begin function compose::in_book
	.type	"compose::in_book",@function
"compose::in_book":                     # @"compose::in_book"
# %bb.0:                                # %start
	pushq	%rbp
	pushq	%r15
	pushq	%r14
	pushq	%r13
	pushq	%r12
	pushq	%rbx
	subq	$376, %rsp                      # imm = 0x178
	movq	%r9, %r13
	movq	%r8, %rbp
	movl	%ecx, %r12d
	movq	%rdx, %r14
	movq	%rsi, %r15
	movq	%rdi, %rbx
	xorps	%xmm0, %xmm0
	movaps	%xmm0, 352(%rsp)
	movaps	%xmm0, 336(%rsp)
	movaps	%xmm0, 320(%rsp)
	movaps	%xmm0, 304(%rsp)
	movaps	%xmm0, 288(%rsp)
	movaps	%xmm0, 272(%rsp)
	movaps	%xmm0, 256(%rsp)
	movaps	%xmm0, 240(%rsp)
	movaps	%xmm0, 224(%rsp)
	movaps	%xmm0, 208(%rsp)
	movaps	%xmm0, 192(%rsp)
	movq	$0, 368(%rsp)
	movw	$0, 24(%rsp)
	movaps	%xmm0, 128(%rsp)
	movaps	%xmm0, 144(%rsp)
	movaps	%xmm0, 160(%rsp)
	movq	$0, 176(%rsp)
	movabsq	$1688849860395010, %rax         # imm = 0x6000000020002
	movq	%rax, 16(%rsp)
	leaq	192(%rsp), %rdi
	leaq	16(%rsp), %rcx
	callq	"compose::blocks::open_deck"
	cmpb	$0, 192(%rsp)
	je	.LBB6_1
# %bb.10:                               # %arm.2
	movq	$1, (%rbx)
	movups	200(%rsp), %xmm0
	movups	%xmm0, 8(%rbx)
	xorps	%xmm0, %xmm0
	movups	%xmm0, 24(%rbx)
	movups	%xmm0, 40(%rbx)
	movq	$0, 56(%rbx)
	jmp	.LBB6_11
.LBB6_1:                                # %arm.1
	movl	%r12d, 4(%rsp)                  # 4-byte Spill
	movq	352(%rsp), %r12
	cmpq	%r12, %r14
	jae	.LBB6_3
# %bb.2:
	xorl	%r8d, %r8d
	movq	%r14, %rcx
	jmp	.LBB6_8
.LBB6_3:                                # %join.3.i
	leaq	4(%r12), %rax
	cmpq	%r14, %r12
	jae	.LBB6_4
# %bb.5:                                # %"records::byte_at.exit.i.i"
	movzbl	(%r15,%r12), %edx
	leaq	1(%r12), %rcx
	cmpq	%r14, %rcx
	jae	.LBB6_7
# %bb.6:                                # %then.1.i6.i.i
	movzbl	(%r15,%rcx), %ecx
	shll	$8, %ecx
	movzwl	%dx, %edx
	orl	%ecx, %edx
	jmp	.LBB6_7
.LBB6_4:
	xorl	%edx, %edx
.LBB6_7:                                # %"records::le16_at.exit.i"
	movq	%r14, %rsi
	subq	%rax, %rsi
	movq	%rax, %rcx
	cmovbq	%r14, %rcx
	movzwl	%dx, %edx
	cmpq	%rdx, %rsi
	cmovaeq	%rdx, %rsi
	xorl	%r8d, %r8d
	cmpq	%rax, %r14
	cmovaeq	%rsi, %r8
.LBB6_8:                                # %"records::payload_at.exit"
	movq	368(%rsp), %rax
	movq	%rax, 8(%rsp)                   # 8-byte Spill
	addq	%r15, %rcx
	leaq	128(%rsp), %rdi
	movq	%rbp, %rsi
	movq	%r13, %rdx
	callq	"summaries::compose"
	cmpb	$1, 128(%rsp)
	movq	136(%rsp), %r13
	movq	144(%rsp), %rbp
	jne	.LBB6_12
# %bb.9:                                # %arm.5
	leaq	(,%rbp,2), %rax
	addq	%rbp, %rax
	leaq	(%r12,%rax,2), %rbp
	xorps	%xmm0, %xmm0
	movaps	%xmm0, 80(%rsp)
	movaps	%xmm0, 64(%rsp)
	movl	$1, %edx
	xorl	%r12d, %r12d
	jmp	.LBB6_24
.LBB6_12:                               # %arm.6
	xorps	%xmm0, %xmm0
	movaps	%xmm0, 96(%rsp)
	movq	$0, 112(%rsp)
	movw	$0, 56(%rsp)
	movw	$0, 40(%rsp)
	cmpb	$1, 4(%rsp)                     # 1-byte Folded Reload
	jne	.LBB6_20
# %bb.13:                               # %join.4.i.i
	movq	$2359299, 48(%rsp)              # imm = 0x240003
	movq	$2621444, 32(%rsp)              # imm = 0x280004
	leaq	96(%rsp), %rdi
	leaq	48(%rsp), %r8
	leaq	32(%rsp), %r9
	movq	%r15, %rsi
	movq	%r14, %rdx
	movq	8(%rsp), %r12                   # 8-byte Reload
	movq	%r12, %rcx
	callq	"records::record_at"
	cmpb	$0, 96(%rsp)
	je	.LBB6_14
# %bb.22:                               # %"deck::sheet_reply.exit.thread.i"
	movq	104(%rsp), %rcx
	movq	112(%rsp), %rax
	jmp	.LBB6_23
.LBB6_20:                               # %"deck::sheet_reply.exit.i"
	movl	$11, %ecx
	movq	8(%rsp), %r12                   # 8-byte Reload
	cmpq	%r14, %r12
	jae	.LBB6_19
# %bb.21:
	movq	%r12, %rax
	jmp	.LBB6_23
.LBB6_14:                               # %arm.5.i.i
	leaq	4(%r12), %rax
	cmpq	%r14, %r12
	jae	.LBB6_15
# %bb.16:                               # %"records::byte_at.exit.i.i.i"
	movzbl	(%r15,%r12), %ecx
	leaq	1(%r12), %rdx
	cmpq	%r14, %rdx
	jae	.LBB6_18
# %bb.17:                               # %then.1.i6.i.i.i
	movzbl	(%r15,%rdx), %edx
	shll	$8, %edx
	movzwl	%cx, %ecx
	orl	%edx, %ecx
	jmp	.LBB6_18
.LBB6_15:
	xorl	%ecx, %ecx
.LBB6_18:                               # %"records::le16_at.exit.i.i"
	movzwl	%cx, %ecx
	addq	%rcx, %rax
	movl	$11, %ecx
	cmpq	%r14, %rax
	jae	.LBB6_19
.LBB6_23:                               # %arm.2.i9
	xorps	%xmm0, %xmm0
	movaps	%xmm0, 80(%rsp)
	movaps	%xmm0, 64(%rsp)
	movl	$1, %edx
	xorl	%r12d, %r12d
	movq	%rcx, %r13
	movq	%rax, %rbp
	jmp	.LBB6_24
.LBB6_19:                               # %arm.1.i
	leaq	152(%rsp), %rax
	movups	(%rax), %xmm0
	movups	16(%rax), %xmm1
	movaps	%xmm1, 80(%rsp)
	movaps	%xmm0, 64(%rsp)
	xorl	%edx, %edx
.LBB6_24:                               # %join.7
	movq	%rdx, (%rbx)
	movq	%r13, 8(%rbx)
	movq	%rbp, 16(%rbx)
	movaps	64(%rsp), %xmm0
	movaps	80(%rsp), %xmm1
	movups	%xmm0, 24(%rbx)
	movups	%xmm1, 40(%rbx)
	movq	%r12, 56(%rbx)
.LBB6_11:                               # %arm.2
	addq	$376, %rsp                      # imm = 0x178
	popq	%rbx
	popq	%r12
	popq	%r13
	popq	%r14
	popq	%r15
	popq	%rbp
	retq
.Lfunc_end6:
	.size	"compose::in_book", .Lfunc_end6-"compose::in_book"
                                        # -- End function
	.section	.rodata.cst16,"aM",@progbits,16
	.p2align	4, 0x0                          # -- Begin function compose::blocks::open_deck
.LCPI7_0:
	.short	1                               # 0x1
	.short	6                               # 0x6
	.short	4                               # 0x4
	.short	2                               # 0x2
	.zero	2
	.zero	2
	.zero	2
	.zero	2
.LCPI7_1:
	.short	1                               # 0x1
	.short	6                               # 0x6
	.short	4                               # 0x4
	.short	2                               # 0x2
	.short	0                               # 0x0
	.short	0                               # 0x0
	.short	0                               # 0x0
	.short	0                               # 0x0
	.section	".text.compose::blocks::open_deck","ax",@progbits
	.p2align	4
	.type	"compose::blocks::open_deck",@function
"compose::blocks::open_deck":           # @"compose::blocks::open_deck"
# %bb.0:                                # %start
	pushq	%rbp
	pushq	%r15
	pushq	%r14
	pushq	%r13
	pushq	%r12
	pushq	%rbx
	subq	$1000, %rsp                     # imm = 0x3E8
	movq	%r9, 248(%rsp)                  # 8-byte Spill
	cmpq	$32769, %rdx                    # imm = 0x8001
	jb	.LBB7_3
# %bb.1:                                # %then.1
	movb	$1, (%rdi)
	movq	$20, 8(%rdi)
	xorps	%xmm0, %xmm0
	movups	%xmm0, 16(%rdi)
	movups	%xmm0, 32(%rdi)
	movups	%xmm0, 48(%rdi)
	movups	%xmm0, 64(%rdi)
	movups	%xmm0, 80(%rdi)
	movups	%xmm0, 96(%rdi)
	movups	%xmm0, 112(%rdi)
	movups	%xmm0, 128(%rdi)
	movups	%xmm0, 144(%rdi)
	movups	%xmm0, 160(%rdi)
	movq	$0, 176(%rdi)
	jmp	.LBB7_2
.LBB7_3:                                # %join.3
	movq	%rdx, %r10
	movq	%rsi, %r13
	movq	%r8, 240(%rsp)                  # 8-byte Spill
	movq	%rdi, 24(%rsp)                  # 8-byte Spill
	movq	(%rcx), %xmm0                   # xmm0 = mem[0],zero
	movdqa	%xmm0, 464(%rsp)                # 16-byte Spill
	movzbl	8(%rcx), %eax
	movb	%al, 7(%rsp)                    # 1-byte Spill
	movzbl	9(%rcx), %eax
	movb	%al, 6(%rsp)                    # 1-byte Spill
	pxor	%xmm0, %xmm0
	movdqa	%xmm0, 208(%rsp)
	movq	$0, 224(%rsp)
	movw	$0, 56(%rsp)
	movdqa	%xmm0, 336(%rsp)
	movdqa	%xmm0, 352(%rsp)
	movdqa	%xmm0, 368(%rsp)
	movdqa	%xmm0, 384(%rsp)
	movdqa	%xmm0, 400(%rsp)
	movdqa	%xmm0, 416(%rsp)
	movdqa	%xmm0, 432(%rsp)
	movdqa	%xmm0, 448(%rsp)
	movl	$528, %ebp                      # imm = 0x210
	xorl	%r14d, %r14d
	xorl	%r12d, %r12d
	movq	%rsi, 16(%rsp)                  # 8-byte Spill
	movq	%rdx, 8(%rsp)                   # 8-byte Spill
	jmp	.LBB7_4
	.p2align	4
.LBB7_63:                               #   in Loop: Header=BB7_4 Depth=1
	xorl	%eax, %eax
	movq	40(%rsp), %rbp                  # 8-byte Reload
.LBB7_66:                               # %"records::le16_at.exit55.i"
                                        #   in Loop: Header=BB7_4 Depth=1
	movzwl	%ax, %eax
	addq	%rax, %rdx
	addq	$528, %rbp                      # imm = 0x210
	incq	%r12
	movq	%rdx, %r14
.LBB7_4:                                # %loop.4.i
                                        # =>This Inner Loop Header: Depth=1
	movabsq	$562967133683713, %rbx          # imm = 0x2000400060001
	movq	%rbx, 48(%rsp)
	movb	$0, 56(%rsp)
	testq	%r12, %r12
	movzbl	7(%rsp), %eax                   # 1-byte Folded Reload
	movl	$0, %edx
	cmovel	%edx, %eax
	movzbl	6(%rsp), %ecx                   # 1-byte Folded Reload
	cmovel	%edx, %ecx
	je	.LBB7_5
# %bb.6:                                # %loop.4.i
                                        #   in Loop: Header=BB7_4 Depth=1
	movdqa	464(%rsp), %xmm0                # 16-byte Reload
	jmp	.LBB7_7
	.p2align	4
.LBB7_5:                                #   in Loop: Header=BB7_4 Depth=1
	movq	.LCPI7_1(%rip), %xmm0           # xmm0 = [1,6,4,2,0,0,0,0]
.LBB7_7:                                # %loop.4.i
                                        #   in Loop: Header=BB7_4 Depth=1
	movq	%xmm0, 64(%rsp)
	movb	%al, 72(%rsp)
	movb	%cl, 73(%rsp)
	leaq	208(%rsp), %rdi
	leaq	48(%rsp), %r8
	leaq	64(%rsp), %r9
	movq	%r13, %rsi
	movq	%r10, %rdx
	movq	%r14, %rcx
	movq	%r10, %r15
	callq	"records::record_at"
	movzbl	208(%rsp), %esi
	testb	%sil, %sil
	jne	.LBB7_8
# %bb.9:                                # %join.8.i
                                        #   in Loop: Header=BB7_4 Depth=1
	leaq	2(%r14), %rax
	cmpq	%r15, %rax
	movq	%r15, %rsi
	jae	.LBB7_13
# %bb.10:                               # %"records::byte_at.exit.i.i"
                                        #   in Loop: Header=BB7_4 Depth=1
	movzbl	2(%r13,%r14), %eax
	leaq	3(%r14), %rcx
	cmpq	%rsi, %rcx
	jae	.LBB7_12
# %bb.11:                               # %then.1.i6.i.i
                                        #   in Loop: Header=BB7_4 Depth=1
	movzbl	(%r13,%rcx), %ecx
	shll	$8, %ecx
	movzwl	%ax, %eax
	orl	%ecx, %eax
.LBB7_12:                               # %"records::le16_at.exit.i"
                                        #   in Loop: Header=BB7_4 Depth=1
	movq	%rbx, 48(%rsp)
	movb	$0, 56(%rsp)
	cmpw	$1, %ax
	jne	.LBB7_13
# %bb.29:                               # %join.11.i
                                        #   in Loop: Header=BB7_4 Depth=1
	movq	%rbp, 40(%rsp)                  # 8-byte Spill
	leaq	4(%r14), %rax
	cmpq	%rsi, %rax
	jae	.LBB7_30
# %bb.31:                               # %"records::byte_at.exit.i.i24.i"
                                        #   in Loop: Header=BB7_4 Depth=1
	movzbl	4(%r13,%r14), %ebp
	leaq	5(%r14), %rax
	cmpq	%rsi, %rax
	jae	.LBB7_33
# %bb.32:                               # %then.1.i6.i.i30.i
                                        #   in Loop: Header=BB7_4 Depth=1
	movzbl	(%r13,%rax), %eax
	shll	$8, %eax
	movzwl	%bp, %ebp
	orl	%eax, %ebp
.LBB7_33:                               # %"records::le16_at.exit.i21.i"
                                        #   in Loop: Header=BB7_4 Depth=1
	leaq	6(%r14), %rax
	cmpq	%rsi, %rax
	jae	.LBB7_34
.LBB7_35:                               # %"records::byte_at.exit.i8.i.i"
                                        #   in Loop: Header=BB7_4 Depth=1
	movzbl	6(%r13,%r14), %r15d
	leaq	7(%r14), %rax
	cmpq	%rsi, %rax
	jae	.LBB7_37
# %bb.36:                               # %then.1.i6.i14.i.i
                                        #   in Loop: Header=BB7_4 Depth=1
	movzbl	(%r13,%rax), %eax
	shll	$8, %eax
	movzwl	%r15w, %r15d
	orl	%eax, %r15d
.LBB7_37:                               # %"records::le16_at.exit17.i.i"
                                        #   in Loop: Header=BB7_4 Depth=1
	leaq	8(%r14), %rax
	cmpq	%rsi, %rax
	jae	.LBB7_38
.LBB7_39:                               # %"records::byte_at.exit.i20.i.i"
                                        #   in Loop: Header=BB7_4 Depth=1
	movzbl	8(%r13,%r14), %ebx
	leaq	9(%r14), %rax
	cmpq	%rsi, %rax
	jae	.LBB7_41
# %bb.40:                               # %then.1.i6.i26.i.i
                                        #   in Loop: Header=BB7_4 Depth=1
	movzbl	(%r13,%rax), %eax
	shll	$8, %eax
	movzwl	%bx, %ebx
	orl	%eax, %ebx
	jmp	.LBB7_41
	.p2align	4
.LBB7_30:                               #   in Loop: Header=BB7_4 Depth=1
	xorl	%ebp, %ebp
	leaq	6(%r14), %rax
	cmpq	%rsi, %rax
	jb	.LBB7_35
.LBB7_34:                               #   in Loop: Header=BB7_4 Depth=1
	xorl	%r15d, %r15d
	leaq	8(%r14), %rax
	cmpq	%rsi, %rax
	jb	.LBB7_39
.LBB7_38:                               #   in Loop: Header=BB7_4 Depth=1
	xorl	%ebx, %ebx
.LBB7_41:                               # %"compose::blocks::block_at.exit.i"
                                        #   in Loop: Header=BB7_4 Depth=1
	testw	%bp, %bp
	je	.LBB7_42
# %bb.43:                               # %"deck::is_unfit.exit.i.i"
                                        #   in Loop: Header=BB7_4 Depth=1
	movzwl	%bp, %ecx
	leaq	488(%rsp), %rdi
	leaq	336(%rsp), %rsi
	movq	%r12, %rdx
	movq	%rcx, 264(%rsp)                 # 8-byte Spill
	callq	"assembly::find_block"
	movl	$14, %eax
	cmpq	$15, %r12
	ja	.LBB7_60
# %bb.44:                               # %"deck::is_unfit.exit.i.i"
                                        #   in Loop: Header=BB7_4 Depth=1
	cmpw	%bp, 488(%rsp)
	je	.LBB7_60
# %bb.45:                               # %join.3.i34.i
                                        #   in Loop: Header=BB7_4 Depth=1
	movq	%r12, 32(%rsp)                  # 8-byte Spill
	movzwl	%bx, %edx
	leaq	4(%r14), %rax
	movzwl	%ax, %eax
	movq	8(%rsp), %rsi                   # 8-byte Reload
	cmpq	%rax, %rsi
	movq	%rdx, 256(%rsp)                 # 8-byte Spill
	jae	.LBB7_47
# %bb.46:                               #   in Loop: Header=BB7_4 Depth=1
	xorl	%r12d, %r12d
	movq	%rsi, %r13
	jmp	.LBB7_48
	.p2align	4
.LBB7_47:                               # %join.3.i.i.i.i
                                        #   in Loop: Header=BB7_4 Depth=1
	addq	$6, %rax
	movq	%rsi, %rcx
	subq	%rax, %rcx
	movq	%rax, %r13
	cmovbq	%rsi, %r13
	addl	%edx, %edx
	cmpq	%rdx, %rcx
	cmovaeq	%rdx, %rcx
	xorl	%r12d, %r12d
	cmpq	%rax, %rsi
	cmovaeq	%rcx, %r12
.LBB7_48:                               # %"assembly::bonds_part.exit.i.i.i"
                                        #   in Loop: Header=BB7_4 Depth=1
	movl	%r15d, %eax
	movzwl	%ax, %ebx
	addq	16(%rsp), %r13                  # 8-byte Folded Reload
	movq	40(%rsp), %rax                  # 8-byte Reload
	cmpq	%rax, 248(%rsp)                 # 8-byte Folded Reload
	jae	.LBB7_52
# %bb.49:                               # %then.1.i.i.i
                                        #   in Loop: Header=BB7_4 Depth=1
	leaq	488(%rsp), %r15
	xorl	%ebp, %ebp
	movl	$512, %edx                      # imm = 0x200
	movq	%r15, %rdi
	xorl	%esi, %esi
	callq	memset@PLT
	movq	%rbx, %rdi
	movq	%r13, %rsi
	movq	%r12, %rdx
	movq	%r15, %rcx
	callq	"block::admit"
	testb	%al, %al
	je	.LBB7_51
# %bb.50:                               #   in Loop: Header=BB7_4 Depth=1
	xorl	%eax, %eax
	xorl	%edx, %edx
	jmp	.LBB7_57
	.p2align	4
.LBB7_52:                               # %join.3.i1.i.i
                                        #   in Loop: Header=BB7_4 Depth=1
	pxor	%xmm0, %xmm0
	movdqa	%xmm0, 304(%rsp)
	movdqa	%xmm0, 288(%rsp)
	movdqa	%xmm0, 272(%rsp)
	movq	$0, 320(%rsp)
	leaq	272(%rsp), %rdi
	leaq	488(%rsp), %r8
	movq	%rbx, %rsi
	movq	%r13, %rdx
	movq	%r12, %rcx
	callq	"reach::opened"
	cmpb	$0, 272(%rsp)
	movq	280(%rsp), %rax
	je	.LBB7_53
# %bb.56:                               # %arm.4.i.i.i.i
                                        #   in Loop: Header=BB7_4 Depth=1
	movb	$1, %bpl
	movq	288(%rsp), %rdx
	jmp	.LBB7_57
	.p2align	4
.LBB7_51:                               # %join.5.i.i.i.i
                                        #   in Loop: Header=BB7_4 Depth=1
	movq	%rbx, %rdi
	movq	%r13, %rsi
	movq	%r12, %rdx
	callq	"block::refusal"
	movb	$1, %bpl
.LBB7_57:                               # %"filling::fill.exit.i.i.i"
                                        #   in Loop: Header=BB7_4 Depth=1
	movq	32(%rsp), %r12                  # 8-byte Reload
	movq	16(%rsp), %r13                  # 8-byte Reload
	movq	8(%rsp), %r10                   # 8-byte Reload
	testb	%bpl, %bpl
	jne	.LBB7_59
.LBB7_62:                               # %join.14.i
                                        #   in Loop: Header=BB7_4 Depth=1
	movq	256(%rsp), %rcx                 # 8-byte Reload
	shlq	$48, %rcx
	shlq	$32, %rbx
	leaq	4(%r14), %rdx
	movl	%edx, %eax
	shll	$16, %eax
	orq	%rcx, %rax
	orq	%rbx, %rax
	addq	264(%rsp), %rax                 # 8-byte Folded Reload
	movq	%rax, 336(%rsp,%r12,8)
	cmpq	%r10, %r14
	jae	.LBB7_63
# %bb.64:                               # %"records::byte_at.exit.i46.i"
                                        #   in Loop: Header=BB7_4 Depth=1
	movzbl	(%r13,%r14), %eax
	incq	%r14
	cmpq	%r10, %r14
	movq	40(%rsp), %rbp                  # 8-byte Reload
	jae	.LBB7_66
# %bb.65:                               # %then.1.i6.i52.i
                                        #   in Loop: Header=BB7_4 Depth=1
	movzbl	(%r13,%r14), %ecx
	shll	$8, %ecx
	movzwl	%ax, %eax
	orl	%ecx, %eax
	jmp	.LBB7_66
.LBB7_53:                               # %arm.3.i.i.i.i
                                        #   in Loop: Header=BB7_4 Depth=1
	movl	312(%rsp), %ecx
	movzbl	320(%rsp), %edx
	movq	240(%rsp), %rsi                 # 8-byte Reload
	movq	40(%rsp), %rdi                  # 8-byte Reload
	movw	%bp, -528(%rsi,%rdi)
	movb	%al, -526(%rsi,%rdi)
	movb	%dl, -525(%rsi,%rdi)
	movdqu	296(%rsp), %xmm0
	pshufd	$232, %xmm0, %xmm0              # xmm0 = xmm0[0,2,2,3]
	movq	%xmm0, -524(%rsi,%rdi)
	movl	%ecx, -516(%rsi,%rdi)
	testw	%r15w, %r15w
	movq	32(%rsp), %r12                  # 8-byte Reload
	movq	16(%rsp), %r13                  # 8-byte Reload
	je	.LBB7_54
# %bb.55:                               # %join.5.i.i.i.preheader.i.i
                                        #   in Loop: Header=BB7_4 Depth=1
	addq	%rsi, %rdi
	addq	$-512, %rdi                     # imm = 0xFE00
	leal	(,%rbx,8), %edx
	leaq	488(%rsp), %rsi
	callq	memcpy@PLT
.LBB7_54:                               #   in Loop: Header=BB7_4 Depth=1
	xorl	%edx, %edx
	xorl	%eax, %eax
	xorl	%ebp, %ebp
	movq	8(%rsp), %r10                   # 8-byte Reload
	testb	%bpl, %bpl
	je	.LBB7_62
.LBB7_59:                               # %arm.2.i.i.i
	testq	%rdx, %rdx
	leaq	8(%r14), %rcx
	leaq	(%rcx,%rdx,2), %rcx
	cmovneq	%rcx, %r14
	jmp	.LBB7_60
.LBB7_13:                               # %then.9.i
	cmpq	%r14, %rsi
	jae	.LBB7_15
# %bb.14:
	xorl	%eax, %eax
	movq	24(%rsp), %r8                   # 8-byte Reload
.LBB7_23:                               # %"records::le16_at.exit.i.i"
	cmpq	%rsi, %r14
	jae	.LBB7_24
# %bb.25:                               # %"records::byte_at.exit.i4.i.i"
	movzbl	(%r13,%r14), %edx
	leaq	1(%r14), %rcx
	cmpq	%rsi, %rcx
	jae	.LBB7_27
# %bb.26:                               # %then.1.i6.i8.i.i
	movzbl	(%r13,%rcx), %ecx
	shll	$8, %ecx
	movzwl	%dx, %edx
	orl	%ecx, %edx
	jmp	.LBB7_27
.LBB7_8:                                # %arm.6.i
	movq	216(%rsp), %rax
	movq	224(%rsp), %rdi
	pxor	%xmm0, %xmm0
	movdqa	%xmm0, 80(%rsp)
	movdqa	%xmm0, 96(%rsp)
	movdqa	%xmm0, 112(%rsp)
	movdqa	%xmm0, 128(%rsp)
	movdqa	%xmm0, 144(%rsp)
	movdqa	%xmm0, 160(%rsp)
	movdqa	%xmm0, 176(%rsp)
	movdqa	%xmm0, 192(%rsp)
	xorl	%r12d, %r12d
	jmp	.LBB7_61
.LBB7_15:                               # %join.3.i.i.i
	leaq	4(%r14), %rcx
	cmpq	%rsi, %r14
	movq	24(%rsp), %r8                   # 8-byte Reload
	jae	.LBB7_16
# %bb.17:                               # %"records::byte_at.exit.i.i.i.i"
	movzbl	(%r13,%r14), %eax
	leaq	1(%r14), %rdx
	cmpq	%rsi, %rdx
	jae	.LBB7_19
# %bb.18:                               # %then.1.i6.i.i.i.i
	movzbl	(%r13,%rdx), %edx
	shll	$8, %edx
	movzwl	%ax, %eax
	orl	%edx, %eax
	jmp	.LBB7_19
.LBB7_24:
	xorl	%edx, %edx
.LBB7_27:                               # %"compose::blocks::deck_at.exit.i"
	movzwl	%ax, %ecx
	movzwl	%dx, %eax
	leaq	(%r14,%rax), %rdx
	addq	$4, %rdx
	movaps	448(%rsp), %xmm0
	movaps	%xmm0, 192(%rsp)
	movaps	432(%rsp), %xmm0
	movaps	%xmm0, 176(%rsp)
	movaps	416(%rsp), %xmm0
	movaps	%xmm0, 160(%rsp)
	movaps	400(%rsp), %xmm0
	movaps	%xmm0, 144(%rsp)
	movaps	336(%rsp), %xmm0
	movaps	352(%rsp), %xmm1
	movaps	368(%rsp), %xmm2
	movaps	384(%rsp), %xmm3
	movaps	%xmm3, 128(%rsp)
	movaps	%xmm2, 112(%rsp)
	movaps	%xmm1, 96(%rsp)
	movaps	%xmm0, 80(%rsp)
	xorl	%esi, %esi
	xorl	%eax, %eax
	xorl	%edi, %edi
	jmp	.LBB7_28
.LBB7_42:                               # %"deck::is_unfit.exit.thread.i.i"
	movl	$14, %eax
.LBB7_60:                               # %arm.13.i
	pxor	%xmm0, %xmm0
	movdqa	%xmm0, 192(%rsp)
	movdqa	%xmm0, 176(%rsp)
	movdqa	%xmm0, 160(%rsp)
	movdqa	%xmm0, 144(%rsp)
	movdqa	%xmm0, 128(%rsp)
	movdqa	%xmm0, 112(%rsp)
	movdqa	%xmm0, 96(%rsp)
	movdqa	%xmm0, 80(%rsp)
	movb	$1, %sil
	xorl	%r12d, %r12d
	movq	%r14, %rdi
.LBB7_61:                               # %"compose::blocks::read_blocks.exit"
	xorl	%r14d, %r14d
	xorl	%ecx, %ecx
	xorl	%edx, %edx
	movq	24(%rsp), %r8                   # 8-byte Reload
.LBB7_28:                               # %"compose::blocks::read_blocks.exit"
	movb	%sil, (%r8)
	movq	%rax, 8(%r8)
	movq	%rdi, 16(%r8)
	movq	%r12, 24(%r8)
	movaps	80(%rsp), %xmm0
	movaps	96(%rsp), %xmm1
	movaps	112(%rsp), %xmm2
	movaps	128(%rsp), %xmm3
	movups	%xmm0, 32(%r8)
	movups	%xmm1, 48(%r8)
	movups	%xmm2, 64(%r8)
	movups	%xmm3, 80(%r8)
	movaps	144(%rsp), %xmm0
	movups	%xmm0, 96(%r8)
	movaps	160(%rsp), %xmm0
	movups	%xmm0, 112(%r8)
	movaps	176(%rsp), %xmm0
	movups	%xmm0, 128(%r8)
	movaps	192(%rsp), %xmm0
	movups	%xmm0, 144(%r8)
	movq	%r14, 160(%r8)
	movq	%rcx, 168(%r8)
	movq	%rdx, 176(%r8)
.LBB7_2:                                # %then.1
	addq	$1000, %rsp                     # imm = 0x3E8
	popq	%rbx
	popq	%r12
	popq	%r13
	popq	%r14
	popq	%r15
	popq	%rbp
	retq
.LBB7_16:
	xorl	%eax, %eax
.LBB7_19:                               # %"records::payload_at.exit.i.i"
	movzwl	%ax, %eax
	movq	%rsi, %rdx
	subq	%rcx, %rdx
	cmpq	%rax, %rdx
	cmovaeq	%rax, %rdx
	xorl	%eax, %eax
	cmpq	%rcx, %rsi
	cmovbq	%rsi, %rcx
	jb	.LBB7_23
# %bb.20:                               # %"records::payload_at.exit.i.i"
	testq	%rdx, %rdx
	je	.LBB7_23
# %bb.21:                               # %"records::byte_at.exit.i.i.i"
	movzbl	(%r13,%rcx), %eax
	cmpq	$2, %rdx
	jb	.LBB7_23
# %bb.22:                               # %then.1.i6.i.i.i
	movzbl	1(%r13,%rcx), %ecx
	shll	$8, %ecx
	movzwl	%ax, %eax
	orl	%ecx, %eax
	jmp	.LBB7_23
.Lfunc_end7:
	.size	"compose::blocks::open_deck", .Lfunc_end7-"compose::blocks::open_deck"
                                        # -- End function
	.section	".text.records::record_at","ax",@progbits
	.p2align	4                               # -- Begin function records::record_at
	.type	"records::record_at",@function
"records::record_at":                   # @"records::record_at"
# %bb.0:                                # %start
	cmpq	%rcx, %rdx
	jb	.LBB8_5
# %bb.1:                                # %join.3
	movq	%rdx, %rax
	subq	%rcx, %rax
	jbe	.LBB8_6
# %bb.2:                                # %"records::byte_at.exit.i"
	movzbl	(%rsi,%rcx), %r10d
	leaq	1(%rcx), %r11
	cmpq	%rdx, %r11
	jae	.LBB8_4
# %bb.3:                                # %then.1.i6.i
	movzbl	(%rsi,%r11), %r11d
	shll	$8, %r11d
	movzwl	%r10w, %r10d
	orl	%r11d, %r10d
.LBB8_4:                                # %"records::le16_at.exit"
	movzwl	%r10w, %r10d
	addq	$4, %r10
	cmpq	%r10, %rax
	jae	.LBB8_7
.LBB8_5:                                # %then.1
	movb	$1, (%rdi)
	movq	$11, 8(%rdi)
	movq	%rcx, 16(%rdi)
	retq
.LBB8_6:
	xorl	%r10d, %r10d
	movzwl	%r10w, %r10d
	addq	$4, %r10
	cmpq	%r10, %rax
	jb	.LBB8_5
.LBB8_7:                                # %join.6
	movzwl	(%r8), %eax
	leaq	2(%rcx), %r10
	cmpq	%rdx, %r10
	jae	.LBB8_14
# %bb.8:                                # %"records::byte_at.exit.i15"
	movzbl	2(%rsi,%rcx), %r10d
	leaq	3(%rcx), %r11
	cmpq	%rdx, %r11
	jae	.LBB8_10
# %bb.9:                                # %then.1.i6.i21
	movzbl	(%rsi,%r11), %r11d
	shll	$8, %r11d
	movzwl	%r10w, %r10d
	orl	%r11d, %r10d
.LBB8_10:                               # %"records::le16_at.exit24"
	cmpw	%ax, %r10w
	jne	.LBB8_15
.LBB8_11:                               # %then.7
	movzwl	2(%r8), %eax
	cmpb	$1, 8(%r8)
	je	.LBB8_17
# %bb.12:                               # %join.3.i.i
	movzwl	4(%r8), %r9d
	movzwl	6(%r8), %r8d
	leaq	(%rcx,%r9), %r10
	addq	$4, %r10
	cmpq	%rdx, %r10
	jae	.LBB8_23
.LBB8_21:                               # %"records::byte_at.exit.i.i.i.i"
	movzbl	(%rsi,%r10), %r9d
	incq	%r10
	cmpq	%rdx, %r10
	jae	.LBB8_24
# %bb.22:                               # %then.1.i6.i.i.i.i
	movzbl	(%rsi,%r10), %edx
	shll	$8, %edx
	movzwl	%r9w, %r9d
	orl	%edx, %r9d
	jmp	.LBB8_24
.LBB8_14:
	xorl	%r10d, %r10d
	cmpw	%ax, %r10w
	je	.LBB8_11
.LBB8_15:                               # %join.9
	cmpw	(%r9), %r10w
	jne	.LBB8_19
# %bb.16:                               # %then.10
	movzwl	2(%r9), %eax
	cmpb	$1, 8(%r9)
	jne	.LBB8_20
.LBB8_17:                               # %"records::byte_at.exit.i.i.i"
	cmpw	%ax, (%rsi,%rcx)
	jae	.LBB8_25
.LBB8_18:
	movl	$13, %edx
	movb	$1, %al
	movb	%al, (%rdi)
	movq	%rdx, 8(%rdi)
	movq	%rcx, 16(%rdi)
	retq
.LBB8_19:                               # %join.12
	movb	$1, (%rdi)
	movq	$12, 8(%rdi)
	movq	%rcx, 16(%rdi)
	retq
.LBB8_20:                               # %join.3.i.i33
	movzwl	4(%r9), %r10d
	movzwl	6(%r9), %r8d
	addq	%rcx, %r10
	addq	$4, %r10
	cmpq	%rdx, %r10
	jb	.LBB8_21
.LBB8_23:
	xorl	%r9d, %r9d
.LBB8_24:                               # %"records::byte_at.exit.i8.i.i.i"
	movzwl	(%rsi,%rcx), %edx
	movzwl	%r9w, %esi
	imulq	%r8, %rsi
	addq	%rax, %rsi
	cmpq	%rdx, %rsi
	jne	.LBB8_18
.LBB8_25:                               # %join.3.i
	xorl	%eax, %eax
	xorl	%edx, %edx
	xorl	%ecx, %ecx
	movb	%al, (%rdi)
	movq	%rdx, 8(%rdi)
	movq	%rcx, 16(%rdi)
	retq
.Lfunc_end8:
	.size	"records::record_at", .Lfunc_end8-"records::record_at"
                                        # -- End function
	.section	".text.assembly::find_block","ax",@progbits
	.p2align	4                               # -- Begin function assembly::find_block
	.type	"assembly::find_block",@function
"assembly::find_block":                 # @"assembly::find_block"
# %bb.0:                                # %start
	testq	%rdx, %rdx
	je	.LBB9_32
# %bb.1:                                # %join.8
	movq	(%rsi), %rax
	cmpw	%cx, %ax
	jne	.LBB9_2
.LBB9_34:                               # %then.9
	movq	%rax, (%rdi)
	retq
.LBB9_2:                                # %loop.2
	cmpq	$1, %rdx
	jne	.LBB9_3
.LBB9_32:                               # %loop.2.15
	movw	$0, (%rdi)
	movw	$0, 6(%rdi)
	movl	$0, 2(%rdi)
	retq
.LBB9_3:                                # %join.8.1
	movq	8(%rsi), %rax
	cmpw	%cx, %ax
	je	.LBB9_34
# %bb.4:                                # %loop.2.1
	cmpq	$2, %rdx
	je	.LBB9_32
# %bb.5:                                # %join.8.2
	movq	16(%rsi), %rax
	cmpw	%cx, %ax
	je	.LBB9_34
# %bb.6:                                # %loop.2.2
	cmpq	$3, %rdx
	je	.LBB9_32
# %bb.7:                                # %join.8.3
	movq	24(%rsi), %rax
	cmpw	%cx, %ax
	je	.LBB9_34
# %bb.8:                                # %loop.2.3
	cmpq	$4, %rdx
	je	.LBB9_32
# %bb.9:                                # %join.8.4
	movq	32(%rsi), %rax
	cmpw	%cx, %ax
	je	.LBB9_34
# %bb.10:                               # %loop.2.4
	cmpq	$5, %rdx
	je	.LBB9_32
# %bb.11:                               # %join.8.5
	movq	40(%rsi), %rax
	cmpw	%cx, %ax
	je	.LBB9_34
# %bb.12:                               # %loop.2.5
	cmpq	$6, %rdx
	je	.LBB9_32
# %bb.13:                               # %join.8.6
	movq	48(%rsi), %rax
	cmpw	%cx, %ax
	je	.LBB9_34
# %bb.14:                               # %loop.2.6
	cmpq	$7, %rdx
	je	.LBB9_32
# %bb.15:                               # %join.8.7
	movq	56(%rsi), %rax
	cmpw	%cx, %ax
	je	.LBB9_34
# %bb.16:                               # %loop.2.7
	cmpq	$8, %rdx
	je	.LBB9_32
# %bb.17:                               # %join.8.8
	movq	64(%rsi), %rax
	cmpw	%cx, %ax
	je	.LBB9_34
# %bb.18:                               # %loop.2.8
	cmpq	$9, %rdx
	je	.LBB9_32
# %bb.19:                               # %join.8.9
	movq	72(%rsi), %rax
	cmpw	%cx, %ax
	je	.LBB9_34
# %bb.20:                               # %loop.2.9
	cmpq	$10, %rdx
	je	.LBB9_32
# %bb.21:                               # %join.8.10
	movq	80(%rsi), %rax
	cmpw	%cx, %ax
	je	.LBB9_34
# %bb.22:                               # %loop.2.10
	cmpq	$11, %rdx
	je	.LBB9_32
# %bb.23:                               # %join.8.11
	movq	88(%rsi), %rax
	cmpw	%cx, %ax
	je	.LBB9_34
# %bb.24:                               # %loop.2.11
	cmpq	$12, %rdx
	je	.LBB9_32
# %bb.25:                               # %join.8.12
	movq	96(%rsi), %rax
	cmpw	%cx, %ax
	je	.LBB9_34
# %bb.26:                               # %loop.2.12
	cmpq	$13, %rdx
	je	.LBB9_32
# %bb.27:                               # %join.8.13
	movq	104(%rsi), %rax
	cmpw	%cx, %ax
	je	.LBB9_34
# %bb.28:                               # %loop.2.13
	cmpq	$14, %rdx
	je	.LBB9_32
# %bb.29:                               # %join.8.14
	movq	112(%rsi), %rax
	cmpw	%cx, %ax
	je	.LBB9_34
# %bb.30:                               # %loop.2.14
	cmpq	$15, %rdx
	je	.LBB9_32
# %bb.31:                               # %join.8.15
	movq	120(%rsi), %rax
	cmpw	%cx, %ax
	je	.LBB9_34
	jmp	.LBB9_32
.Lfunc_end9:
	.size	"assembly::find_block", .Lfunc_end9-"assembly::find_block"
                                        # -- End function
	.section	.rodata.cst16,"aM",@progbits,16
	.p2align	4, 0x0                          # -- Begin function reach::opened
.LCPI10_0:
	.zero	16,85
.LCPI10_1:
	.zero	16,51
.LCPI10_2:
	.zero	16,15
	.section	".text.reach::opened","ax",@progbits
	.p2align	4
	.type	"reach::opened",@function
"reach::opened":                        # @"reach::opened"
# %bb.0:                                # %start
	pushq	%r15
	pushq	%r14
	pushq	%r13
	pushq	%r12
	pushq	%rbx
	subq	$80, %rsp
	movq	%r8, %r12
	movq	%rcx, %r14
	movq	%rdx, %r15
	movq	%rsi, %r13
	movq	%rdi, %rbx
	pxor	%xmm0, %xmm0
	movdqa	%xmm0, 48(%rsp)
	movdqa	%xmm0, 32(%rsp)
	movdqa	%xmm0, 16(%rsp)
	movq	$0, 64(%rsp)
	movl	$512, %edx                      # imm = 0x200
	movq	%r8, %rdi
	xorl	%esi, %esi
	callq	memset@PLT
	cmpq	$384, %r14                      # imm = 0x180
	ja	.LBB10_21
# %bb.1:                                # %start
	leaq	-65(%r13), %rax
	cmpq	$-64, %rax
	jb	.LBB10_21
# %bb.2:                                # %start
	movl	%r14d, %eax
	andl	$1, %eax
	jne	.LBB10_21
# %bb.3:                                # %after.1.i.i
	movb	$1, %dl
	testq	%r14, %r14
	je	.LBB10_10
# %bb.4:                                # %join.5.i.i.i.preheader
	movq	%r14, %rsi
	shrq	%rsi
	xorl	%edi, %edi
	.p2align	4
.LBB10_5:                               # %join.5.i.i.i
                                        # =>This Inner Loop Header: Depth=1
	movzbl	(%r15,%rdi,2), %r8d
	leaq	-1(%r8), %rcx
	cmpq	%r13, %rcx
	jae	.LBB10_6
# %bb.7:                                # %else.9.i.i.i
                                        #   in Loop: Header=BB10_5 Depth=1
	movzbl	1(%r15,%rdi,2), %r9d
	leaq	-1(%r9), %rax
	cmpq	%r13, %rax
	jae	.LBB10_8
# %bb.9:                                # %after.6.i.i.i
                                        #   in Loop: Header=BB10_5 Depth=1
	movl	$1, %r10d
	movl	$1, %r11d
                                        # kill: def $cl killed $cl killed $rcx
	shlq	%cl, %r11
	movl	%eax, %ecx
	shlq	%cl, %r10
	orq	%r10, -8(%r12,%r8,8)
	orq	%r11, -8(%r12,%r9,8)
	incq	%rdi
	cmpq	%rdi, %rsi
	jne	.LBB10_5
	jmp	.LBB10_10
.LBB10_6:
	xorl	%edx, %edx
.LBB10_10:                              # %"block::bonding::sketched.exit.i.i"
	cmpq	$4, %r13
	jae	.LBB10_13
.LBB10_11:
	xorl	%ecx, %ecx
	xorl	%esi, %esi
	xorl	%eax, %eax
	jmp	.LBB10_12
.LBB10_8:
	xorl	%edx, %edx
	cmpq	$4, %r13
	jb	.LBB10_11
.LBB10_13:                              # %vector.ph
	movl	%r13d, %eax
	andl	$124, %eax
	pxor	%xmm3, %xmm3
	xorl	%ecx, %ecx
	pxor	%xmm4, %xmm4
	pxor	%xmm2, %xmm2
	pxor	%xmm1, %xmm1
	pxor	%xmm0, %xmm0
	.p2align	4
.LBB10_14:                              # %vector.body
                                        # =>This Inner Loop Header: Depth=1
	movdqu	(%r12,%rcx,8), %xmm7
	movdqu	16(%r12,%rcx,8), %xmm5
	movdqa	%xmm7, %xmm6
	psrlw	$1, %xmm6
	movdqa	.LCPI10_0(%rip), %xmm8          # xmm8 = [85,85,85,85,85,85,85,85,85,85,85,85,85,85,85,85]
	pand	%xmm8, %xmm6
	psubb	%xmm6, %xmm7
	movdqa	.LCPI10_1(%rip), %xmm9          # xmm9 = [51,51,51,51,51,51,51,51,51,51,51,51,51,51,51,51]
	movdqa	%xmm7, %xmm6
	pand	%xmm9, %xmm6
	psrlw	$2, %xmm7
	pand	%xmm9, %xmm7
	paddb	%xmm6, %xmm7
	movdqa	%xmm7, %xmm6
	psrlw	$4, %xmm6
	paddb	%xmm7, %xmm6
	movdqa	.LCPI10_2(%rip), %xmm7          # xmm7 = [15,15,15,15,15,15,15,15,15,15,15,15,15,15,15,15]
	pand	%xmm7, %xmm6
	psadbw	%xmm3, %xmm6
	movdqa	%xmm5, %xmm10
	psrlw	$1, %xmm10
	pand	%xmm8, %xmm10
	psubb	%xmm10, %xmm5
	movdqa	%xmm5, %xmm8
	pand	%xmm9, %xmm8
	psrlw	$2, %xmm5
	pand	%xmm9, %xmm5
	paddb	%xmm8, %xmm5
	movdqa	%xmm5, %xmm8
	psrlw	$4, %xmm8
	paddb	%xmm5, %xmm8
	pand	%xmm7, %xmm8
	psadbw	%xmm3, %xmm8
	paddq	%xmm6, %xmm4
	paddq	%xmm8, %xmm2
	pcmpeqd	%xmm5, %xmm5
	psubq	%xmm5, %xmm6
	por	%xmm6, %xmm1
	psubq	%xmm5, %xmm8
	por	%xmm8, %xmm0
	addq	$4, %rcx
	cmpq	%rcx, %rax
	jne	.LBB10_14
# %bb.15:                               # %middle.block
	paddq	%xmm4, %xmm2
	pshufd	$238, %xmm2, %xmm3              # xmm3 = xmm2[2,3,2,3]
	paddq	%xmm2, %xmm3
	movq	%xmm3, %rcx
	por	%xmm1, %xmm0
	pshufd	$238, %xmm0, %xmm1              # xmm1 = xmm0[2,3,2,3]
	por	%xmm0, %xmm1
	movq	%xmm1, %rsi
	jmp	.LBB10_16
.LBB10_12:                              # %join.5.i11.i.i
	movq	(%r12,%rax,8), %rdi
	movq	%rdi, %r8
	shrq	%r8
	movabsq	$6148914691236517205, %r9       # imm = 0x5555555555555555
	andq	%r8, %r9
	subq	%r9, %rdi
	movabsq	$3689348814741910323, %r8       # imm = 0x3333333333333333
	movq	%rdi, %r9
	andq	%r8, %r9
	shrq	$2, %rdi
	andq	%r8, %rdi
	addq	%r9, %rdi
	movq	%rdi, %r8
	shrq	$4, %r8
	addq	%rdi, %r8
	movabsq	$1085102592571150095, %rdi      # imm = 0xF0F0F0F0F0F0F0F
	andq	%r8, %rdi
	movabsq	$72340172838076673, %r8         # imm = 0x101010101010101
	imulq	%rdi, %r8
	shrq	$56, %r8
	addq	%r8, %rcx
	incq	%r8
	orq	%r8, %rsi
	incq	%rax
.LBB10_16:                              # %join.5.i11.i.i
	cmpq	%rax, %r13
	jne	.LBB10_12
# %bb.17:                               # %"block::bonding::is_plain.exit.i.i"
	cmpq	%r14, %rcx
	sete	%al
	andb	%al, %dl
	cmpb	$1, %dl
	jne	.LBB10_21
# %bb.18:                               # %"block::bonding::is_plain.exit.i.i"
	cmpq	$7, %rsi
	ja	.LBB10_21
# %bb.19:                               # %arm.1
	leaq	8(%rsp), %rax
	movq	%rax, (%rsp)
	leaq	16(%rsp), %rdi
	movq	%r13, %rsi
	movq	%r15, %rdx
	movq	%r14, %rcx
	movq	%r12, %r8
	xorl	%r9d, %r9d
	callq	"reach::summed"
	movzbl	16(%rsp), %eax
	movq	%rax, (%rbx)
	movups	24(%rsp), %xmm0
	movdqu	40(%rsp), %xmm1
	movdqu	56(%rsp), %xmm2
	movups	%xmm0, 8(%rbx)
	movdqu	%xmm1, 24(%rbx)
	movdqu	%xmm2, 40(%rbx)
	jmp	.LBB10_20
.LBB10_21:                              # %arm.2
	movl	$512, %edx                      # imm = 0x200
	movq	%r12, %rdi
	xorl	%esi, %esi
	callq	memset@PLT
	movq	%r13, %rdi
	movq	%r15, %rsi
	movq	%r14, %rdx
	callq	"block::refusal"
	movq	%rax, 24(%rsp)
	movq	%rdx, 32(%rsp)
	pxor	%xmm0, %xmm0
	movdqu	%xmm0, 40(%rsp)
	movdqu	%xmm0, 56(%rsp)
	movq	$1, (%rbx)
	movq	24(%rsp), %rax
	movq	%rax, 8(%rbx)
	movq	32(%rsp), %rax
	movq	%rax, 16(%rbx)
	movups	40(%rsp), %xmm0
	movups	%xmm0, 24(%rbx)
	movups	56(%rsp), %xmm0
	movups	%xmm0, 40(%rbx)
.LBB10_20:                              # %common.ret
	addq	$80, %rsp
	popq	%rbx
	popq	%r12
	popq	%r13
	popq	%r14
	popq	%r15
	retq
.Lfunc_end10:
	.size	"reach::opened", .Lfunc_end10-"reach::opened"
                                        # -- End function
	.section	".text.summaries::compose","ax",@progbits
	.p2align	4                               # -- Begin function summaries::compose
	.type	"summaries::compose",@function
"summaries::compose":                   # @"summaries::compose"
# %bb.0:                                # %start
	pushq	%rbp
	pushq	%r15
	pushq	%r14
	pushq	%r13
	pushq	%r12
	pushq	%rbx
	subq	$3072, %rsp                     # imm = 0xC00
	movq	$0, (%rsp)
	subq	$808, %rsp                      # imm = 0x328
	movq	%r8, %r13
	movq	%rcx, %rbp
	movq	%rdx, %r14
	movq	%rsi, %r15
	movq	%rdi, %rbx
	xorps	%xmm0, %xmm0
	movaps	%xmm0, 128(%rsp)
	movq	$0, 144(%rsp)
	movaps	%xmm0, 32(%rsp)
	movaps	%xmm0, 48(%rsp)
	leaq	128(%rsp), %rdi
	callq	"shelf::check"
	cmpb	$0, 128(%rsp)
	je	.LBB11_2
# %bb.1:                                # %arm.2
	movq	$1, (%rbx)
	movups	136(%rsp), %xmm0
	movups	%xmm0, 8(%rbx)
	xorps	%xmm0, %xmm0
	movups	%xmm0, 24(%rbx)
	movups	%xmm0, 40(%rbx)
	jmp	.LBB11_49
.LBB11_2:                               # %arm.1
	testq	%r13, %r13
	je	.LBB11_40
# %bb.3:                                # %"records::byte_at.exit.i"
	movq	%r15, 24(%rsp)                  # 8-byte Spill
	movq	%r14, %r15
	movzbl	(%rbp), %r14d
	cmpq	$1, %r13
	je	.LBB11_5
# %bb.4:                                # %then.1.i6.i
	movzbl	1(%rbp), %eax
	shll	$8, %eax
	movzwl	%r14w, %r14d
	orl	%eax, %r14d
.LBB11_5:                               # %"records::le16_at.exit"
	leaq	1824(%rsp), %r12
	movl	$384, %edx                      # imm = 0x180
	movq	%r12, %rdi
	xorl	%esi, %esi
	callq	memset@PLT
	testw	%r14w, %r14w
	je	.LBB11_41
# %bb.6:                                # %join.7.lr.ph.i
	movzwl	%r14w, %ecx
	movl	$2863311531, %eax               # imm = 0xAAAAAAAB
	imulq	%r13, %rax
	shrq	$34, %rax
	movq	%rcx, 120(%rsp)                 # 8-byte Spill
	addl	%ecx, %ecx
	leaq	(%rcx,%rcx,2), %rcx
	xorl	%edx, %edx
	xorl	%esi, %esi
	movq	%r15, %r14
	movq	24(%rsp), %r15                  # 8-byte Reload
	jmp	.LBB11_10
	.p2align	4
.LBB11_7:                               # %then.4.i.i.i
                                        #   in Loop: Header=BB11_10 Depth=1
	movzwl	2(%rbp), %r10d
.LBB11_8:                               # %"summaries::links::block_of.exit.i"
                                        #   in Loop: Header=BB11_10 Depth=1
	xorl	%edi, %edi
.LBB11_9:                               # %"summaries::links::block_of.exit.i"
                                        #   in Loop: Header=BB11_10 Depth=1
	movzwl	%r10w, %r10d
	shll	$8, %r10d
	movzbl	%r8b, %r8d
	orl	%r10d, %r8d
	movl	%r8d, 4(%r9)
	movzwl	%di, %edi
	movl	%edi, 2080(%rsp,%rsi,4)
	incq	%rsi
	addq	$6, %rdx
	addq	$8, %r12
	cmpq	%rdx, %rcx
	je	.LBB11_39
.LBB11_10:                              # %join.7.i
                                        # =>This Inner Loop Header: Depth=1
	cmpq	%rax, %rsi
	jbe	.LBB11_12
# %bb.11:                               # %"assembly::placement_at.exit.thread.i"
                                        #   in Loop: Header=BB11_10 Depth=1
	leaq	(%rsp,%rsi,8), %r9
	addq	$1824, %r9                      # imm = 0x720
	movl	$0, (%r12)
	xorl	%r8d, %r8d
	cmpq	$8, %r13
	jae	.LBB11_7
	jmp	.LBB11_28
	.p2align	4
.LBB11_12:                              # %join.3.i.i
                                        #   in Loop: Header=BB11_10 Depth=1
	leaq	8(%rdx), %rdi
	cmpq	%r13, %rdi
	jbe	.LBB11_16
# %bb.13:                               # %join.6.i.i
                                        #   in Loop: Header=BB11_10 Depth=1
	leaq	2(%rdx), %rdi
	cmpq	%r13, %rdi
	jae	.LBB11_17
# %bb.14:                               # %"records::byte_at.exit.i.i.i"
                                        #   in Loop: Header=BB11_10 Depth=1
	movzbl	2(%rbp,%rdx), %r9d
	leaq	3(%rdx), %rdi
	cmpq	%r13, %rdi
	jae	.LBB11_18
# %bb.15:                               # %then.1.i6.i.i.i
                                        #   in Loop: Header=BB11_10 Depth=1
	movzbl	3(%rbp,%rdx), %edi
	shll	$8, %edi
	movzwl	%r9w, %r9d
	orl	%edi, %r9d
	jmp	.LBB11_18
	.p2align	4
.LBB11_16:                              # %then.4.i.i
                                        #   in Loop: Header=BB11_10 Depth=1
	movzwl	2(%rbp,%rdx), %r9d
	movzwl	4(%rbp,%rdx), %edi
	movzbl	6(%rbp,%rdx), %r8d
	movzbl	7(%rbp,%rdx), %r10d
	jmp	.LBB11_24
.LBB11_17:                              #   in Loop: Header=BB11_10 Depth=1
	xorl	%r9d, %r9d
.LBB11_18:                              # %"records::le16_at.exit.i.i"
                                        #   in Loop: Header=BB11_10 Depth=1
	leaq	4(%rdx), %r8
	xorl	%r10d, %r10d
	movl	$0, %edi
	cmpq	%r13, %r8
	jae	.LBB11_21
# %bb.19:                               # %"records::byte_at.exit.i46.i.i"
                                        #   in Loop: Header=BB11_10 Depth=1
	movzbl	4(%rbp,%rdx), %edi
	leaq	5(%rdx), %r8
	cmpq	%r13, %r8
	jae	.LBB11_21
# %bb.20:                               # %then.1.i6.i52.i.i
                                        #   in Loop: Header=BB11_10 Depth=1
	movzbl	5(%rbp,%rdx), %r8d
	shll	$8, %r8d
	movzwl	%di, %edi
	orl	%r8d, %edi
.LBB11_21:                              # %"records::le16_at.exit55.i.i"
                                        #   in Loop: Header=BB11_10 Depth=1
	leaq	6(%rdx), %r8
	cmpq	%r13, %r8
	jae	.LBB11_23
# %bb.22:                               # %then.1.i.i.i
                                        #   in Loop: Header=BB11_10 Depth=1
	movzbl	6(%rbp,%rdx), %r8d
	jmp	.LBB11_24
.LBB11_23:                              #   in Loop: Header=BB11_10 Depth=1
	xorl	%r8d, %r8d
.LBB11_24:                              # %"assembly::placement_at.exit.i"
                                        #   in Loop: Header=BB11_10 Depth=1
	movzwl	%r9w, %r9d
	shll	$8, %r9d
	orl	%r10d, %r9d
	movl	%r9d, (%r12)
	testw	%di, %di
	je	.LBB11_27
# %bb.25:                               # %join.3.i13.i
                                        #   in Loop: Header=BB11_10 Depth=1
	movzwl	%di, %r9d
	decq	%r9
	cmpq	%rax, %r9
	jbe	.LBB11_32
.LBB11_26:                              #   in Loop: Header=BB11_10 Depth=1
	xorl	%r10d, %r10d
	jmp	.LBB11_38
.LBB11_27:                              #   in Loop: Header=BB11_10 Depth=1
	movq	%r12, %r9
	cmpq	$8, %r13
	jae	.LBB11_7
.LBB11_28:                              # %join.6.i.i.i
                                        #   in Loop: Header=BB11_10 Depth=1
	cmpq	$3, %r13
	jb	.LBB11_31
# %bb.29:                               # %"records::byte_at.exit.i.i.i.i"
                                        #   in Loop: Header=BB11_10 Depth=1
	movzbl	2(%rbp), %r10d
	je	.LBB11_8
# %bb.36:                               # %then.1.i6.i.i.i.i
                                        #   in Loop: Header=BB11_10 Depth=1
	movzbl	3(%rbp), %edi
	shll	$8, %edi
	movzwl	%r10w, %r10d
	orl	%edi, %r10d
	jmp	.LBB11_8
.LBB11_31:                              #   in Loop: Header=BB11_10 Depth=1
	xorl	%edi, %edi
	xorl	%r10d, %r10d
	jmp	.LBB11_9
.LBB11_32:                              # %join.3.i.i.i
                                        #   in Loop: Header=BB11_10 Depth=1
	addq	%r9, %r9
	leaq	(%r9,%r9,2), %r10
	addq	$2, %r10
	leaq	(%r9,%r9,2), %r11
	addq	$8, %r11
	cmpq	%r13, %r11
	jbe	.LBB11_37
# %bb.33:                               # %join.6.i19.i.i
                                        #   in Loop: Header=BB11_10 Depth=1
	cmpq	%r13, %r10
	jae	.LBB11_26
# %bb.34:                               # %"records::byte_at.exit.i.i43.i.i"
                                        #   in Loop: Header=BB11_10 Depth=1
	leaq	(%r9,%r9,2), %r9
	movzbl	2(%rbp,%r9), %r10d
	addq	$3, %r9
	cmpq	%r13, %r9
	jae	.LBB11_38
# %bb.35:                               # %then.1.i6.i.i48.i.i
                                        #   in Loop: Header=BB11_10 Depth=1
	movzbl	(%rbp,%r9), %r9d
	shll	$8, %r9d
	movzwl	%r10w, %r10d
	orl	%r9d, %r10d
	jmp	.LBB11_38
.LBB11_37:                              # %then.4.i7.i.i
                                        #   in Loop: Header=BB11_10 Depth=1
	movzwl	(%rbp,%r10), %r10d
.LBB11_38:                              # %"summaries::links::block_of.exit.i"
                                        #   in Loop: Header=BB11_10 Depth=1
	movq	%r12, %r9
	jmp	.LBB11_9
.LBB11_39:
	movq	120(%rsp), %rbp                 # 8-byte Reload
	jmp	.LBB11_42
.LBB11_40:                              # %"records::le16_at.exit.thread"
	leaq	1824(%rsp), %rdi
	xorl	%ebp, %ebp
	movl	$384, %edx                      # imm = 0x180
	xorl	%esi, %esi
	callq	memset@PLT
	jmp	.LBB11_42
.LBB11_41:
	movq	%r15, %r14
	movq	24(%rsp), %r15                  # 8-byte Reload
	xorl	%ebp, %ebp
.LBB11_42:                              # %"summaries::links::links_of.exit"
	leaq	416(%rsp), %rdi
	leaq	1824(%rsp), %r12
	movl	$384, %edx                      # imm = 0x180
	movq	%r12, %rsi
	callq	memcpy@PLT
	xorps	%xmm0, %xmm0
	movaps	%xmm0, 64(%rsp)
	movaps	%xmm0, 80(%rsp)
	movaps	%xmm0, 96(%rsp)
	cmpl	$2, %ebp
	ja	.LBB11_44
# %bb.43:                               # %then.1.i
	movaps	%xmm0, 848(%rsp)
	movaps	%xmm0, 832(%rsp)
	movaps	%xmm0, 816(%rsp)
	movaps	%xmm0, 800(%rsp)
	movaps	%xmm0, 1824(%rsp)
	movaps	%xmm0, 1840(%rsp)
	movaps	%xmm0, 1856(%rsp)
	movaps	%xmm0, 1872(%rsp)
	movaps	%xmm0, 1888(%rsp)
	movaps	%xmm0, 1904(%rsp)
	movaps	%xmm0, 1920(%rsp)
	movaps	%xmm0, 1936(%rsp)
	movaps	%xmm0, 160(%rsp)
	leaq	160(%rsp), %rax
	movq	%rax, 8(%rsp)
	movq	%r12, (%rsp)
	leaq	64(%rsp), %rdi
	leaq	416(%rsp), %rcx
	leaq	800(%rsp), %r9
	movq	%r15, %rsi
	movq	%r14, %rdx
	movq	%rbp, %r8
	callq	"summaries::by_rows"
	movaps	64(%rsp), %xmm0
	movaps	80(%rsp), %xmm1
	movaps	96(%rsp), %xmm2
	jmp	.LBB11_48
.LBB11_44:                              # %join.3.i
	leaq	800(%rsp), %r13
	cmpl	$10, %ebp
	ja	.LBB11_46
# %bb.45:                               # %then.12.i
	movl	$320, %edx                      # imm = 0x140
	movq	%r13, %rdi
	xorl	%esi, %esi
	callq	memset@PLT
	movl	$640, %edx                      # imm = 0x280
	movq	%r12, %rdi
	xorl	%esi, %esi
	callq	memset@PLT
	xorps	%xmm0, %xmm0
	movaps	%xmm0, 160(%rsp)
	movaps	%xmm0, 176(%rsp)
	movaps	%xmm0, 192(%rsp)
	movaps	%xmm0, 208(%rsp)
	movaps	%xmm0, 224(%rsp)
	jmp	.LBB11_47
.LBB11_46:                              # %join.14.i
	movl	$1024, %edx                     # imm = 0x400
	movq	%r13, %rdi
	xorl	%esi, %esi
	callq	memset@PLT
	movl	$2048, %edx                     # imm = 0x800
	movq	%r12, %rdi
	xorl	%esi, %esi
	callq	memset@PLT
	xorps	%xmm0, %xmm0
	movaps	%xmm0, 160(%rsp)
	movaps	%xmm0, 176(%rsp)
	movaps	%xmm0, 192(%rsp)
	movaps	%xmm0, 208(%rsp)
	movaps	%xmm0, 224(%rsp)
	movaps	%xmm0, 240(%rsp)
	movaps	%xmm0, 256(%rsp)
	movaps	%xmm0, 272(%rsp)
	movaps	%xmm0, 288(%rsp)
	movaps	%xmm0, 304(%rsp)
	movaps	%xmm0, 320(%rsp)
	movaps	%xmm0, 336(%rsp)
	movaps	%xmm0, 352(%rsp)
	movaps	%xmm0, 368(%rsp)
	movaps	%xmm0, 384(%rsp)
	movaps	%xmm0, 400(%rsp)
.LBB11_47:                              # %"summaries::placed.exit"
	leaq	160(%rsp), %rax
	movq	%rax, 8(%rsp)
	movq	%r12, (%rsp)
	leaq	64(%rsp), %rdi
	leaq	416(%rsp), %rcx
	movq	%r15, %rsi
	movq	%r14, %rdx
	movq	%rbp, %r8
	movq	%r13, %r9
	callq	"summaries::by_rows"
	movaps	64(%rsp), %xmm0
	leaq	80(%rsp), %rax
	movups	(%rax), %xmm1
	movups	16(%rax), %xmm2
.LBB11_48:                              # %"summaries::placed.exit"
	movaps	%xmm1, 32(%rsp)
	movaps	%xmm2, 48(%rsp)
	movq	$0, (%rbx)
	movups	%xmm0, 8(%rbx)
	movaps	32(%rsp), %xmm0
	movaps	48(%rsp), %xmm1
	movups	%xmm0, 24(%rbx)
	movups	%xmm1, 40(%rbx)
.LBB11_49:                              # %arm.2
	addq	$3880, %rsp                     # imm = 0xF28
	popq	%rbx
	popq	%r12
	popq	%r13
	popq	%r14
	popq	%r15
	popq	%rbp
	retq
.Lfunc_end11:
	.size	"summaries::compose", .Lfunc_end11-"summaries::compose"
                                        # -- End function
	.section	".text.shelf::check","ax",@progbits
	.p2align	4                               # -- Begin function shelf::check
	.type	"shelf::check",@function
"shelf::check":                         # @"shelf::check"
# %bb.0:                                # %start
	pushq	%rbp
	pushq	%r15
	pushq	%r14
	pushq	%r13
	pushq	%r12
	pushq	%rbx
	subq	$56, %rsp
	testq	%r8, %r8
	je	.LBB12_4
# %bb.1:                                # %"records::byte_at.exit.i"
	movq	%rcx, %r15
	movq	%rdx, %r10
	movq	%rsi, %r11
	movzbl	(%rcx), %eax
	cmpq	$1, %r8
	je	.LBB12_3
# %bb.2:                                # %then.1.i6.i
	movzbl	1(%r15), %ecx
	shll	$8, %ecx
	movzwl	%ax, %eax
	orl	%ecx, %eax
.LBB12_3:                               # %"records::le16_at.exit"
	leal	-33(%rax), %ecx
	cmpw	$-32, %cx
	jae	.LBB12_5
.LBB12_4:                               # %then.1
	movb	$1, (%rdi)
	movq	$15, 8(%rdi)
	movq	$0, 16(%rdi)
	jmp	.LBB12_87
.LBB12_5:                               # %join.8.lr.ph
	movq	%rdi, 40(%rsp)                  # 8-byte Spill
	movzwl	%ax, %eax
	movq	%rax, 48(%rsp)                  # 8-byte Spill
	movl	$2863311531, %edi               # imm = 0xAAAAAAAB
	imulq	%r8, %rdi
	shrq	$34, %rdi
	movzwl	%r10w, %eax
	imull	$63551, %eax, %r14d             # imm = 0xF83F
	shrl	$25, %r14d
	movq	$-1, %r13
	xorl	%ebp, %ebp
	movq	%r8, 24(%rsp)                   # 8-byte Spill
	movq	%r10, 16(%rsp)                  # 8-byte Spill
	movq	%r11, 8(%rsp)                   # 8-byte Spill
	movq	%rdi, 32(%rsp)                  # 8-byte Spill
	jmp	.LBB12_7
	.p2align	4
.LBB12_6:                               # %join.11
                                        #   in Loop: Header=BB12_7 Depth=1
	incq	%rbp
	incq	%r13
	cmpq	48(%rsp), %rbp                  # 8-byte Folded Reload
	je	.LBB12_84
.LBB12_7:                               # %join.8
                                        # =>This Loop Header: Depth=1
                                        #     Child Loop BB12_24 Depth 2
                                        #     Child Loop BB12_40 Depth 2
                                        #     Child Loop BB12_74 Depth 2
	cmpq	%rdi, %rbp
	jbe	.LBB12_9
# %bb.8:                                #   in Loop: Header=BB12_7 Depth=1
	xorl	%r9d, %r9d
	xorl	%eax, %eax
	xorl	%ecx, %ecx
	jmp	.LBB12_26
	.p2align	4
.LBB12_9:                               # %join.3.i.i
                                        #   in Loop: Header=BB12_7 Depth=1
	leaq	(,%rbp,2), %rax
	leaq	(%rax,%rax,2), %rsi
	leaq	(%rax,%rax,2), %rcx
	addq	$8, %rcx
	cmpq	%r8, %rcx
	jbe	.LBB12_18
# %bb.10:                               # %join.6.i.i
                                        #   in Loop: Header=BB12_7 Depth=1
	leaq	(%rax,%rax,2), %rax
	addq	$2, %rax
	cmpq	%r8, %rax
	jae	.LBB12_19
# %bb.11:                               # %"records::byte_at.exit.i.i.i"
                                        #   in Loop: Header=BB12_7 Depth=1
	movzbl	2(%r15,%rsi), %edx
	leaq	3(%rsi), %rax
	cmpq	%r8, %rax
	jae	.LBB12_13
# %bb.12:                               # %then.1.i6.i.i.i
                                        #   in Loop: Header=BB12_7 Depth=1
	movzbl	(%r15,%rax), %eax
	shll	$8, %eax
	movzwl	%dx, %edx
	orl	%eax, %edx
.LBB12_13:                              # %"records::le16_at.exit.i.i"
                                        #   in Loop: Header=BB12_7 Depth=1
	leaq	4(%rsi), %rax
	cmpq	%r8, %rax
	jae	.LBB12_20
.LBB12_14:                              # %"records::byte_at.exit.i46.i.i"
                                        #   in Loop: Header=BB12_7 Depth=1
	movzbl	4(%r15,%rsi), %ecx
	leaq	5(%rsi), %rax
	cmpq	%r8, %rax
	jae	.LBB12_16
# %bb.15:                               # %then.1.i6.i52.i.i
                                        #   in Loop: Header=BB12_7 Depth=1
	movzbl	(%r15,%rax), %eax
	shll	$8, %eax
	movzwl	%cx, %ecx
	orl	%eax, %ecx
.LBB12_16:                              # %"records::le16_at.exit55.i.i"
                                        #   in Loop: Header=BB12_7 Depth=1
	addq	$6, %rsi
	cmpq	%r8, %rsi
	jae	.LBB12_21
.LBB12_17:                              # %then.1.i.i.i
                                        #   in Loop: Header=BB12_7 Depth=1
	movzbl	(%r15,%rsi), %eax
	xorl	%r9d, %r9d
	testw	%dx, %dx
	jne	.LBB12_23
	jmp	.LBB12_26
	.p2align	4
.LBB12_18:                              # %then.4.i.i
                                        #   in Loop: Header=BB12_7 Depth=1
	movzwl	2(%r15,%rsi), %edx
	movzwl	4(%r15,%rsi), %ecx
	movzbl	6(%r15,%rsi), %eax
	movzbl	7(%r15,%rsi), %r9d
	testw	%dx, %dx
	jne	.LBB12_23
	jmp	.LBB12_26
.LBB12_19:                              #   in Loop: Header=BB12_7 Depth=1
	xorl	%edx, %edx
	leaq	4(%rsi), %rax
	cmpq	%r8, %rax
	jb	.LBB12_14
.LBB12_20:                              #   in Loop: Header=BB12_7 Depth=1
	xorl	%ecx, %ecx
	addq	$6, %rsi
	cmpq	%r8, %rsi
	jb	.LBB12_17
.LBB12_21:                              #   in Loop: Header=BB12_7 Depth=1
	xorl	%eax, %eax
	xorl	%r9d, %r9d
	testw	%dx, %dx
	je	.LBB12_26
.LBB12_23:                              # %join.8.i.i.preheader
                                        #   in Loop: Header=BB12_7 Depth=1
	xorl	%ebx, %ebx
	movq	%r11, %rsi
	.p2align	4
.LBB12_24:                              # %join.8.i.i
                                        #   Parent Loop BB12_7 Depth=1
                                        # =>  This Inner Loop Header: Depth=2
	cmpw	(%rsi), %dx
	je	.LBB12_27
# %bb.25:                               # %join.11.i.i
                                        #   in Loop: Header=BB12_24 Depth=2
	incq	%rbx
	addq	$528, %rsi                      # imm = 0x210
	cmpq	%rbx, %r14
	jne	.LBB12_24
	.p2align	4
.LBB12_26:                              #   in Loop: Header=BB12_7 Depth=1
	movq	%r14, %rbx
.LBB12_27:                              # %"shelf::place_of.exit.i"
                                        #   in Loop: Header=BB12_7 Depth=1
	cmpq	%r14, %rbx
	jae	.LBB12_83
# %bb.28:                               # %join.3.i
                                        #   in Loop: Header=BB12_7 Depth=1
	testq	%rbp, %rbp
	je	.LBB12_36
# %bb.29:                               # %join.6.i
                                        #   in Loop: Header=BB12_7 Depth=1
	movzwl	%cx, %esi
	decq	%rsi
	cmpq	%rbp, %rsi
	jae	.LBB12_85
# %bb.30:                               # %join.9.i
                                        #   in Loop: Header=BB12_7 Depth=1
	movq	%r14, %rdx
	cmpl	%edi, %esi
	ja	.LBB12_45
# %bb.31:                               # %join.3.i28.i
                                        #   in Loop: Header=BB12_7 Depth=1
	addq	%rsi, %rsi
	leaq	(%rsi,%rsi,2), %rcx
	addq	$2, %rcx
	leaq	(%rsi,%rsi,2), %rdx
	addq	$8, %rdx
	cmpq	%r8, %rdx
	jbe	.LBB12_38
# %bb.32:                               # %join.6.i45.i
                                        #   in Loop: Header=BB12_7 Depth=1
	movq	%r14, %rdx
	cmpq	%r8, %rcx
	jae	.LBB12_45
# %bb.33:                               # %"records::byte_at.exit.i.i72.i"
                                        #   in Loop: Header=BB12_7 Depth=1
	leaq	(%rsi,%rsi,2), %rdx
	movzbl	2(%r15,%rdx), %ecx
	addq	$3, %rdx
	cmpq	%r8, %rdx
	jae	.LBB12_35
# %bb.34:                               # %then.1.i6.i.i78.i
                                        #   in Loop: Header=BB12_7 Depth=1
	movzbl	(%r15,%rdx), %edx
	shll	$8, %edx
	movzwl	%cx, %ecx
	orl	%edx, %ecx
	.p2align	4
.LBB12_35:                              # %"assembly::placement_at.exit82.i"
                                        #   in Loop: Header=BB12_7 Depth=1
	movq	%r14, %rdx
	testw	%cx, %cx
	jne	.LBB12_39
	jmp	.LBB12_45
	.p2align	4
.LBB12_36:                              # %then.4.i
                                        #   in Loop: Header=BB12_7 Depth=1
	orb	%r9b, %al
	movl	$17, %eax
	jne	.LBB12_86
# %bb.37:                               # %then.4.i
                                        #   in Loop: Header=BB12_7 Depth=1
	testw	%cx, %cx
	je	.LBB12_6
	jmp	.LBB12_86
.LBB12_38:                              # %then.4.i33.i
                                        #   in Loop: Header=BB12_7 Depth=1
	movzwl	(%r15,%rcx), %ecx
	movq	%r14, %rdx
	testw	%cx, %cx
	je	.LBB12_45
.LBB12_39:                              # %join.8.i87.i.preheader
                                        #   in Loop: Header=BB12_7 Depth=1
	xorl	%edx, %edx
	movq	%r11, %rsi
	.p2align	4
.LBB12_40:                              # %join.8.i87.i
                                        #   Parent Loop BB12_7 Depth=1
                                        # =>  This Inner Loop Header: Depth=2
	cmpw	(%rsi), %cx
	je	.LBB12_43
# %bb.41:                               # %join.11.i93.i
                                        #   in Loop: Header=BB12_40 Depth=2
	incq	%rdx
	addq	$528, %rsi                      # imm = 0x210
	cmpq	%rdx, %r14
	jne	.LBB12_40
# %bb.42:                               #   in Loop: Header=BB12_7 Depth=1
	movq	%r14, %rdx
	jmp	.LBB12_45
.LBB12_43:                              # %"shelf::place_of.exit97.i"
                                        #   in Loop: Header=BB12_7 Depth=1
	cmpq	%r14, %rdx
	jbe	.LBB12_45
# %bb.44:                               #   in Loop: Header=BB12_7 Depth=1
	xorl	%r8d, %r8d
	movq	%r10, %rcx
	jmp	.LBB12_54
	.p2align	4
.LBB12_45:                              # %join.3.i.i.i
                                        #   in Loop: Header=BB12_7 Depth=1
	imulq	$528, %rdx, %rcx                # imm = 0x210
	movq	%r10, %rdx
	subq	%rcx, %rdx
	cmpq	$528, %rdx                      # imm = 0x210
	movl	$528, %r8d                      # imm = 0x210
	cmovbq	%rdx, %r8
	movq	%r10, %rdx
	subq	%rcx, %rdx
	cmovbq	%r10, %rcx
	jae	.LBB12_47
# %bb.46:                               #   in Loop: Header=BB12_7 Depth=1
	xorl	%r8d, %r8d
	jmp	.LBB12_54
	.p2align	4
.LBB12_47:                              # %"shelf::summary_at.exit.i.i"
                                        #   in Loop: Header=BB12_7 Depth=1
	cmpq	$3, %rdx
	jb	.LBB12_54
# %bb.48:                               # %"records::byte_at.exit.i.i100.i"
                                        #   in Loop: Header=BB12_7 Depth=1
	movzbl	2(%r11,%rcx), %edx
	cmpb	$64, %dl
	movl	$64, %esi
	cmovbl	%edx, %esi
	movzbl	%sil, %edx
	movq	%rdx, (%rsp)                    # 8-byte Spill
	movzbl	%al, %edx
	decq	%rdx
	cmpq	$63, %rdx
	ja	.LBB12_55
.LBB12_49:                              # %join.3.i.i.i.i
                                        #   in Loop: Header=BB12_7 Depth=1
	addq	%r11, %rcx
	xorl	%esi, %esi
	movq	%r8, %rax
	subq	$16, %rax
	movl	$16, %edi
	cmovbq	%r8, %rdi
	cmovaeq	%rax, %rsi
	addq	%rcx, %rdi
	movl	%r9d, %r12d
	callq	"sighted::set_at"
	movl	%r12d, %r9d
	movq	8(%rsp), %r11                   # 8-byte Reload
	movq	16(%rsp), %r10                  # 8-byte Reload
	movq	%rax, %rcx
	shrq	%rcx
	movabsq	$6148914691236517205, %rdx      # imm = 0x5555555555555555
	andq	%rcx, %rdx
	subq	%rdx, %rax
	movabsq	$3689348814741910323, %rcx      # imm = 0x3333333333333333
	movq	%rax, %rdx
	andq	%rcx, %rdx
	shrq	$2, %rax
	andq	%rcx, %rax
	addq	%rdx, %rax
	movq	%rax, %rcx
	shrq	$4, %rcx
	addq	%rax, %rcx
	movabsq	$1085102592571150095, %rax      # imm = 0xF0F0F0F0F0F0F0F
	andq	%rcx, %rax
	movabsq	$72340172838076673, %r12        # imm = 0x101010101010101
	imulq	%rax, %r12
	shrq	$56, %r12
	cmpq	%r14, %rbx
	ja	.LBB12_56
.LBB12_50:                              # %join.3.i.i106.i
                                        #   in Loop: Header=BB12_7 Depth=1
	imulq	$528, %rbx, %rax                # imm = 0x210
	movq	%r10, %rdx
	subq	%rax, %rdx
	cmpq	$528, %rdx                      # imm = 0x210
	movl	$528, %ecx                      # imm = 0x210
	cmovbq	%rdx, %rcx
	movq	%r10, %rdx
	subq	%rax, %rdx
	cmovbq	%r10, %rax
	jae	.LBB12_52
# %bb.51:                               #   in Loop: Header=BB12_7 Depth=1
	xorl	%ecx, %ecx
	jmp	.LBB12_57
	.p2align	4
.LBB12_54:                              #   in Loop: Header=BB12_7 Depth=1
	movq	$0, (%rsp)                      # 8-byte Folded Spill
	movzbl	%al, %edx
	decq	%rdx
	cmpq	$63, %rdx
	jbe	.LBB12_49
.LBB12_55:                              #   in Loop: Header=BB12_7 Depth=1
	xorl	%r12d, %r12d
	cmpq	%r14, %rbx
	jbe	.LBB12_50
.LBB12_56:                              #   in Loop: Header=BB12_7 Depth=1
	xorl	%ecx, %ecx
	movq	%r10, %rax
.LBB12_57:                              #   in Loop: Header=BB12_7 Depth=1
	xorl	%ebx, %ebx
	movzbl	%r9b, %edx
	decq	%rdx
	cmpq	$63, %rdx
	jbe	.LBB12_60
.LBB12_58:                              #   in Loop: Header=BB12_7 Depth=1
	xorl	%ecx, %ecx
	jmp	.LBB12_61
.LBB12_52:                              # %"shelf::summary_at.exit.i112.i"
                                        #   in Loop: Header=BB12_7 Depth=1
	cmpq	$3, %rdx
	jb	.LBB12_57
# %bb.53:                               # %"records::byte_at.exit.i.i126.i"
                                        #   in Loop: Header=BB12_7 Depth=1
	movzbl	2(%r11,%rax), %edx
	cmpb	$64, %dl
	movl	$64, %esi
	cmovbl	%edx, %esi
	movzbl	%sil, %ebx
	movzbl	%r9b, %edx
	decq	%rdx
	cmpq	$63, %rdx
	ja	.LBB12_58
	.p2align	4
.LBB12_60:                              # %join.3.i.i.i118.i
                                        #   in Loop: Header=BB12_7 Depth=1
	addq	%r11, %rax
	xorl	%r8d, %r8d
	movq	%rcx, %rsi
	subq	$16, %rsi
	movl	$16, %edi
	cmovbq	%rcx, %rdi
	cmovbq	%r8, %rsi
	addq	%rax, %rdi
	callq	"sighted::set_at"
	movq	8(%rsp), %r11                   # 8-byte Reload
	movq	16(%rsp), %r10                  # 8-byte Reload
	movq	%rax, %rcx
	shrq	%rcx
	movabsq	$6148914691236517205, %rdx      # imm = 0x5555555555555555
	andq	%rcx, %rdx
	subq	%rdx, %rax
	movabsq	$3689348814741910323, %rcx      # imm = 0x3333333333333333
	movq	%rax, %rdx
	andq	%rcx, %rdx
	shrq	$2, %rax
	andq	%rcx, %rax
	addq	%rdx, %rax
	movq	%rax, %rcx
	shrq	$4, %rcx
	addq	%rax, %rcx
	movabsq	$1085102592571150095, %rax      # imm = 0xF0F0F0F0F0F0F0F
	andq	%rcx, %rax
	movabsq	$72340172838076673, %rcx        # imm = 0x101010101010101
	imulq	%rax, %rcx
	shrq	$56, %rcx
	cmpl	$6, %ecx
	movl	$19, %ecx
	movl	$0, %eax
	cmovbq	%rax, %rcx
.LBB12_61:                              # %"shelf::site_at.exit132.i"
                                        #   in Loop: Header=BB12_7 Depth=1
	movq	24(%rsp), %r8                   # 8-byte Reload
	movq	32(%rsp), %rdx                  # 8-byte Reload
	movl	$18, %eax
	cmpq	%rdx, %rbp
	ja	.LBB12_86
# %bb.62:                               # %join.3.i.i134.i
                                        #   in Loop: Header=BB12_7 Depth=1
	leaq	(,%rbp,2), %rdx
	leaq	(%rdx,%rdx,2), %rsi
	addq	$8, %rsi
	cmpq	%r8, %rsi
	ja	.LBB12_86
# %bb.63:                               # %"assembly::placement_at.exit.i.i"
                                        #   in Loop: Header=BB12_7 Depth=1
	leaq	(%rdx,%rdx,2), %rsi
	movzbl	6(%r15,%rsi), %edx
	leal	-1(%rdx), %edi
	cmpl	(%rsp), %edi                    # 4-byte Folded Reload
	jae	.LBB12_86
# %bb.64:                               # %"assembly::placement_at.exit.i.i"
                                        #   in Loop: Header=BB12_7 Depth=1
	movzbl	7(%r15,%rsi), %edi
	decq	%rdi
	cmpl	%ebx, %edi
	jae	.LBB12_86
# %bb.65:                               # %join.6.i136.i
                                        #   in Loop: Header=BB12_7 Depth=1
	movl	$19, %eax
	cmpl	$5, %r12d
	ja	.LBB12_86
# %bb.66:                               # %join.6.i8.i.i
                                        #   in Loop: Header=BB12_7 Depth=1
	leaq	-1(%rbp), %r9
	movzwl	4(%r15,%rsi), %edi
	testq	%rdi, %rdi
	je	.LBB12_69
# %bb.67:                               # %join.3.i.i.i.i.i
                                        #   in Loop: Header=BB12_7 Depth=1
	leaq	-2(%rdi), %rsi
	cmpq	%r9, %rsi
	jae	.LBB12_69
# %bb.68:                               # %join.3.i.i.i.i.i.i
                                        #   in Loop: Header=BB12_7 Depth=1
	movq	%r9, %rbx
	leaq	(%rdi,%rdi,2), %r9
	xorl	%esi, %esi
	cmpb	%dl, 1(%r15,%r9,2)
	movq	%rbx, %r9
	sete	%sil
	jmp	.LBB12_70
	.p2align	4
.LBB12_69:                              # %"assembly::own_on.exit.i.i.i.i"
                                        #   in Loop: Header=BB12_7 Depth=1
	xorl	%esi, %esi
	testq	%r9, %r9
	je	.LBB12_81
.LBB12_70:                              # %join.5.i.i.i.i.preheader
                                        #   in Loop: Header=BB12_7 Depth=1
	cmpq	$2, %rbp
	jne	.LBB12_72
# %bb.71:                               #   in Loop: Header=BB12_7 Depth=1
	xorl	%r9d, %r9d
	jmp	.LBB12_79
.LBB12_72:                              # %join.5.i.i.i.i.preheader.new
                                        #   in Loop: Header=BB12_7 Depth=1
	movq	%r9, %r8
	movq	%r13, %r10
	andq	$-2, %r10
	xorl	%r9d, %r9d
	leaq	18(%r15), %r11
	jmp	.LBB12_74
	.p2align	4
.LBB12_73:                              # %"assembly::is_on.exit.thread.i.i.i.i.1"
                                        #   in Loop: Header=BB12_74 Depth=2
	addq	$2, %r9
	addq	$12, %r11
	cmpq	%r9, %r10
	je	.LBB12_78
.LBB12_74:                              # %join.5.i.i.i.i
                                        #   Parent Loop BB12_7 Depth=1
                                        # =>  This Inner Loop Header: Depth=2
	cmpw	%di, -8(%r11)
	jne	.LBB12_75
# %bb.76:                               # %"assembly::is_on.exit.i.i.i.i"
                                        #   in Loop: Header=BB12_74 Depth=2
	xorl	%ebx, %ebx
	cmpb	%dl, -6(%r11)
	sete	%bl
	addq	%rbx, %rsi
	cmpw	%di, -2(%r11)
	jne	.LBB12_73
	jmp	.LBB12_77
	.p2align	4
.LBB12_75:                              # %"assembly::is_on.exit.thread.i.i.i.i"
                                        #   in Loop: Header=BB12_74 Depth=2
	cmpw	%di, -2(%r11)
	jne	.LBB12_73
.LBB12_77:                              # %"assembly::is_on.exit.i.i.i.i.1"
                                        #   in Loop: Header=BB12_74 Depth=2
	xorl	%ebx, %ebx
	cmpb	%dl, (%r11)
	sete	%bl
	addq	%rbx, %rsi
	jmp	.LBB12_73
.LBB12_78:                              # %"assembly::is_full.exit.i.i.loopexit.unr-lcssa"
                                        #   in Loop: Header=BB12_7 Depth=1
	testb	$1, %r8b
	movq	24(%rsp), %r8                   # 8-byte Reload
	movq	16(%rsp), %r10                  # 8-byte Reload
	movq	8(%rsp), %r11                   # 8-byte Reload
	je	.LBB12_81
.LBB12_79:                              # %join.5.i.i.i.i.epil.preheader
                                        #   in Loop: Header=BB12_7 Depth=1
	addq	%r9, %r9
	leaq	(%r9,%r9,2), %r9
	cmpw	%di, 10(%r15,%r9)
	jne	.LBB12_81
# %bb.80:                               # %"assembly::is_on.exit.i.i.i.i.epil"
                                        #   in Loop: Header=BB12_7 Depth=1
	xorl	%edi, %edi
	cmpb	%dl, 12(%r15,%r9)
	sete	%dil
	addq	%rdi, %rsi
.LBB12_81:                              # %"assembly::is_full.exit.i.i"
                                        #   in Loop: Header=BB12_7 Depth=1
	addq	%r12, %rsi
	cmpq	$5, %rsi
	movq	32(%rsp), %rdi                  # 8-byte Reload
	ja	.LBB12_86
# %bb.82:                               # %"shelf::fault_of.exit"
                                        #   in Loop: Header=BB12_7 Depth=1
	movq	%rcx, %rax
	testq	%rcx, %rcx
	je	.LBB12_6
	jmp	.LBB12_86
.LBB12_83:
	movl	$16, %eax
	jmp	.LBB12_86
.LBB12_84:                              # %after.4
	movq	40(%rsp), %rax                  # 8-byte Reload
	movb	$0, (%rax)
	xorps	%xmm0, %xmm0
	movups	%xmm0, 8(%rax)
	jmp	.LBB12_87
.LBB12_85:                              # %then.7.i
	cmpw	$1, %cx
	movl	$24, %eax
	sbbq	$0, %rax
.LBB12_86:                              # %then.9
	incq	%rbp
	movq	40(%rsp), %rcx                  # 8-byte Reload
	movb	$1, (%rcx)
	movq	%rax, 8(%rcx)
	movq	%rbp, 16(%rcx)
.LBB12_87:                              # %common.ret
	addq	$56, %rsp
	popq	%rbx
	popq	%r12
	popq	%r13
	popq	%r14
	popq	%r15
	popq	%rbp
	retq
.Lfunc_end12:
	.size	"shelf::check", .Lfunc_end12-"shelf::check"
                                        # -- End function
	.section	".text.sighted::set_at","ax",@progbits
	.p2align	4                               # -- Begin function sighted::set_at
	.type	"sighted::set_at",@function
"sighted::set_at":                      # @"sighted::set_at"
# %bb.0:                                # %start
	shlq	$3, %rdx
	cmpq	$512, %rsi                      # imm = 0x200
	jae	.LBB13_5
# %bb.1:                                # %then.1
	movq	%rsi, %rax
	subq	$8, %rax
	setb	%cl
	cmpq	%rax, %rdx
	seta	%al
	orb	%cl, %al
	je	.LBB13_8
# %bb.2:                                # %join.6.i
	cmpq	%rdx, %rsi
	jbe	.LBB13_9
# %bb.3:                                # %join.8.i.i.preheader
	movq	%rdx, %rax
	orq	$7, %rax
	cmpq	%rsi, %rax
	jae	.LBB13_11
# %bb.4:                                # %then.1.i.i.i
	movzbl	(%rdi,%rax), %ecx
	shll	$8, %ecx
	movq	%rdx, %rax
	orq	$6, %rax
	cmpq	%rsi, %rax
	jb	.LBB13_12
	jmp	.LBB13_13
.LBB13_5:                               # %join.3
	cmpq	$504, %rdx                      # imm = 0x1F8
	jbe	.LBB13_8
# %bb.6:                                # %join.6.i10
	cmpq	$511, %rdx                      # imm = 0x1FF
	jbe	.LBB13_10
.LBB13_9:
	xorl	%eax, %eax
	retq
.LBB13_8:                               # %then.1.i6
	movq	(%rdi,%rdx), %rax
	retq
.LBB13_10:                              # %"records::byte_at.exit.i.i20.7"
	movzbl	7(%rdi,%rdx), %eax
	movzbl	6(%rdi,%rdx), %ecx
	shll	$16, %eax
	shll	$8, %ecx
	orl	%eax, %ecx
	movzbl	5(%rdi,%rdx), %eax
	orl	%ecx, %eax
	movzbl	4(%rdi,%rdx), %ecx
	shlq	$16, %rax
	shll	$8, %ecx
	orq	%rax, %rcx
	movzbl	3(%rdi,%rdx), %eax
	orq	%rcx, %rax
	movzbl	2(%rdi,%rdx), %ecx
	shlq	$16, %rax
	shll	$8, %ecx
	orq	%rax, %rcx
	movzbl	1(%rdi,%rdx), %esi
	orq	%rcx, %rsi
	shlq	$8, %rsi
	movzbl	(%rdi,%rdx), %eax
	orq	%rsi, %rax
	retq
.LBB13_11:
	xorl	%ecx, %ecx
	movq	%rdx, %rax
	orq	$6, %rax
	cmpq	%rsi, %rax
	jae	.LBB13_13
.LBB13_12:                              # %then.1.i.i.i.1
	movzbl	(%rdi,%rax), %eax
	orq	%rax, %rcx
.LBB13_13:                              # %"records::byte_at.exit.i.i.1"
	shll	$8, %ecx
	movq	%rdx, %rax
	orq	$5, %rax
	cmpq	%rsi, %rax
	jae	.LBB13_15
# %bb.14:                               # %then.1.i.i.i.2
	movzbl	(%rdi,%rax), %eax
	orq	%rax, %rcx
.LBB13_15:                              # %"records::byte_at.exit.i.i.2"
	shll	$8, %ecx
	movq	%rdx, %rax
	orq	$4, %rax
	cmpq	%rsi, %rax
	jae	.LBB13_17
# %bb.16:                               # %then.1.i.i.i.3
	movzbl	(%rdi,%rax), %eax
	orq	%rax, %rcx
.LBB13_17:                              # %"records::byte_at.exit.i.i.3"
	shlq	$8, %rcx
	movq	%rdx, %rax
	orq	$3, %rax
	cmpq	%rsi, %rax
	jae	.LBB13_19
# %bb.18:                               # %then.1.i.i.i.4
	movzbl	(%rdi,%rax), %eax
	orq	%rax, %rcx
.LBB13_19:                              # %"records::byte_at.exit.i.i.4"
	shlq	$8, %rcx
	movq	%rdx, %rax
	orq	$2, %rax
	cmpq	%rsi, %rax
	jae	.LBB13_21
# %bb.20:                               # %then.1.i.i.i.5
	movzbl	(%rdi,%rax), %eax
	orq	%rax, %rcx
.LBB13_21:                              # %"records::byte_at.exit.i.i.5"
	shlq	$8, %rcx
	movq	%rdx, %rax
	orq	$1, %rax
	cmpq	%rsi, %rax
	jae	.LBB13_23
# %bb.22:                               # %then.1.i.i.i.6
	movzbl	(%rdi,%rax), %eax
	orq	%rax, %rcx
.LBB13_23:                              # %"records::byte_at.exit.i.i.7"
	shlq	$8, %rcx
	movzbl	(%rdi,%rdx), %eax
	orq	%rcx, %rax
	retq
.Lfunc_end13:
	.size	"sighted::set_at", .Lfunc_end13-"sighted::set_at"
                                        # -- End function
	.section	".text.summaries::by_rows","ax",@progbits
	.p2align	4                               # -- Begin function summaries::by_rows
	.type	"summaries::by_rows",@function
"summaries::by_rows":                   # @"summaries::by_rows"
# %bb.0:                                # %start
	pushq	%rbp
	pushq	%r15
	pushq	%r14
	pushq	%r13
	pushq	%r12
	pushq	%rbx
	subq	$424, %rsp                      # imm = 0x1A8
	movq	%r9, %r14
	movq	%rdx, %r9
	movq	%rsi, 40(%rsp)                  # 8-byte Spill
	movq	%rdi, 288(%rsp)                 # 8-byte Spill
	movq	480(%rsp), %rbp
	cmpq	$1, %r8
	movq	%r14, 88(%rsp)                  # 8-byte Spill
	movq	%r8, 48(%rsp)                   # 8-byte Spill
	movq	%rcx, 24(%rsp)                  # 8-byte Spill
	movq	%rdx, 64(%rsp)                  # 8-byte Spill
	jbe	.LBB14_1
# %bb.2:                                # %join.5.lr.ph.i
	leaq	(%r8,%r8), %r10
	movzwl	%r9w, %eax
	imull	$63551, %eax, %eax              # imm = 0xF83F
	shrl	$25, %eax
	movq	%rax, 72(%rsp)                  # 8-byte Spill
	leaq	-3(%r10), %r15
	leaq	28(%rcx), %r12
	leaq	12(%rcx), %rax
	movq	%rax, 8(%rsp)                   # 8-byte Spill
	leaq	260(%rcx), %rax
	movq	%rax, (%rsp)                    # 8-byte Spill
	movl	$2, %r13d
	xorl	%ebp, %ebp
	movq	%r15, 32(%rsp)                  # 8-byte Spill
	movq	%r10, 16(%rsp)                  # 8-byte Spill
	jmp	.LBB14_3
	.p2align	4
.LBB14_40:                              # %"summaries::ends::see_end.exit.i"
                                        #   in Loop: Header=BB14_3 Depth=1
	incq	%r13
	incq	%rbp
	decq	%r15
	addq	$4, %r12
	cmpq	%r10, %r13
	je	.LBB14_41
.LBB14_3:                               # %join.5.i
                                        # =>This Loop Header: Depth=1
                                        #     Child Loop BB14_8 Depth 2
                                        #     Child Loop BB14_10 Depth 2
                                        #     Child Loop BB14_14 Depth 2
                                        #     Child Loop BB14_22 Depth 2
                                        #       Child Loop BB14_33 Depth 3
	movq	%r13, %rax
	shlq	$5, %rax
	movq	480(%rsp), %rdx
	cmpl	$0, 12(%rdx,%rax)
	jne	.LBB14_40
# %bb.4:                                # %join.3.i.i
                                        #   in Loop: Header=BB14_3 Depth=1
	movl	(%rcx,%r13,4), %r14d
	movq	%r10, %rbx
	cmpq	$11, %r8
	movq	72(%rsp), %rdi                  # 8-byte Reload
	jb	.LBB14_12
# %bb.5:                                # %then.2.i.i.i
                                        #   in Loop: Header=BB14_3 Depth=1
	leaq	1(%r13), %rbx
	cmpq	%r10, %rbx
	jae	.LBB14_12
# %bb.6:                                # %join.5.i.i.i.i.preheader
                                        #   in Loop: Header=BB14_3 Depth=1
	movq	32(%rsp), %r8                   # 8-byte Reload
	subq	%rbp, %r8
	xorl	%esi, %esi
	movq	%rbx, %rax
	cmpq	$8, %r8
	jb	.LBB14_10
# %bb.7:                                # %vector.ph
                                        #   in Loop: Header=BB14_3 Depth=1
	movq	%r15, %rsi
	andq	$-8, %rsi
	movq	%r8, %rdx
	andq	$-8, %rdx
	leaq	(%rbx,%rdx), %rax
	movd	%r14d, %xmm0
	pshufd	$0, %xmm0, %xmm1                # xmm1 = xmm0[0,0,0,0]
	pxor	%xmm0, %xmm0
	xorl	%edi, %edi
	pxor	%xmm2, %xmm2
	.p2align	4
.LBB14_8:                               # %vector.body
                                        #   Parent Loop BB14_3 Depth=1
                                        # =>  This Inner Loop Header: Depth=2
	movdqu	-16(%r12,%rdi,4), %xmm3
	movdqu	(%r12,%rdi,4), %xmm4
	pcmpeqd	%xmm1, %xmm3
	psubd	%xmm3, %xmm2
	pcmpeqd	%xmm1, %xmm4
	psubd	%xmm4, %xmm0
	addq	$8, %rdi
	cmpq	%rdi, %rsi
	jne	.LBB14_8
# %bb.9:                                # %middle.block
                                        #   in Loop: Header=BB14_3 Depth=1
	paddd	%xmm2, %xmm0
	pshufd	$238, %xmm0, %xmm1              # xmm1 = xmm0[2,3,2,3]
	paddd	%xmm0, %xmm1
	pshufd	$85, %xmm1, %xmm0               # xmm0 = xmm1[1,1,1,1]
	paddd	%xmm1, %xmm0
	movd	%xmm0, %esi
	cmpq	%rdx, %r8
	je	.LBB14_11
	.p2align	4
.LBB14_10:                              # %join.5.i.i.i.i
                                        #   Parent Loop BB14_3 Depth=1
                                        # =>  This Inner Loop Header: Depth=2
	xorl	%edx, %edx
	cmpl	%r14d, (%rcx,%rax,4)
	sete	%dl
	addl	%edx, %esi
	incq	%rax
	cmpq	%rax, %r10
	jne	.LBB14_10
.LBB14_11:                              # %"summaries::ends::again.exit.i.i.i"
                                        #   in Loop: Header=BB14_3 Depth=1
	testl	%esi, %esi
	cmovneq	%r10, %rbx
	movq	72(%rsp), %rdi                  # 8-byte Reload
.LBB14_12:                              # %"summaries::ends::none_from.exit.i.i"
                                        #   in Loop: Header=BB14_3 Depth=1
	pxor	%xmm0, %xmm0
	movdqa	%xmm0, 272(%rsp)
	movdqa	%xmm0, 256(%rsp)
	movdqa	%xmm0, 240(%rsp)
	movdqa	%xmm0, 224(%rsp)
	movdqa	%xmm0, 208(%rsp)
	movdqa	%xmm0, 192(%rsp)
	movdqa	%xmm0, 176(%rsp)
	movdqa	%xmm0, 160(%rsp)
	movl	%r14d, %ecx
	shrl	$8, %ecx
	movq	%rdi, %rax
	je	.LBB14_17
# %bb.13:                               # %join.8.i.i.i.i.preheader
                                        #   in Loop: Header=BB14_3 Depth=1
	xorl	%eax, %eax
	movq	40(%rsp), %rdx                  # 8-byte Reload
	.p2align	4
.LBB14_14:                              # %join.8.i.i.i.i
                                        #   Parent Loop BB14_3 Depth=1
                                        # =>  This Inner Loop Header: Depth=2
	movzwl	(%rdx), %esi
	cmpl	%esi, %ecx
	je	.LBB14_18
# %bb.15:                               # %join.11.i.i.i.i
                                        #   in Loop: Header=BB14_14 Depth=2
	incq	%rax
	addq	$528, %rdx                      # imm = 0x210
	cmpq	%rax, %rdi
	jne	.LBB14_14
# %bb.16:                               #   in Loop: Header=BB14_3 Depth=1
	movq	%rdi, %rax
	jmp	.LBB14_17
.LBB14_18:                              # %"shelf::place_of.exit.i.i.i"
                                        #   in Loop: Header=BB14_3 Depth=1
	cmpq	%rdi, %rax
	jbe	.LBB14_17
# %bb.19:                               #   in Loop: Header=BB14_3 Depth=1
	xorl	%edx, %edx
	movq	64(%rsp), %rsi                  # 8-byte Reload
	jmp	.LBB14_20
	.p2align	4
.LBB14_17:                              # %join.3.i.i.i.i
                                        #   in Loop: Header=BB14_3 Depth=1
	imulq	$528, %rax, %rax                # imm = 0x210
	movq	64(%rsp), %r8                   # 8-byte Reload
	movq	%r8, %rcx
	subq	%rax, %rcx
	movq	%rax, %rsi
	cmovbq	%r8, %rsi
	cmpq	$528, %rcx                      # imm = 0x210
	movl	$528, %edi                      # imm = 0x210
	cmovbq	%rcx, %rdi
	xorl	%edx, %edx
	cmpq	%rax, %r8
	cmovaeq	%rdi, %rdx
.LBB14_20:                              # %"summaries::ends::seen_from.exit.i.i"
                                        #   in Loop: Header=BB14_3 Depth=1
	addq	40(%rsp), %rsi                  # 8-byte Folded Reload
	movzbl	%r14b, %ecx
	leaq	160(%rsp), %rdi
	callq	"summary::seen"
	movaps	160(%rsp), %xmm0
	movaps	192(%rsp), %xmm1
	leaq	224(%rsp), %rax
	movdqu	(%rax), %xmm2
	movdqu	16(%rax), %xmm3
	movdqu	32(%rax), %xmm4
	movups	48(%rax), %xmm5
	movdqa	%xmm2, 320(%rsp)
	movdqa	%xmm3, 336(%rsp)
	movdqa	%xmm4, 352(%rsp)
	movaps	%xmm5, 368(%rsp)
	cmpq	%rbx, %r13
	movq	48(%rsp), %r8                   # 8-byte Reload
	movq	24(%rsp), %rcx                  # 8-byte Reload
	movq	16(%rsp), %r10                  # 8-byte Reload
	jae	.LBB14_40
# %bb.21:                               # %join.5.i.i.i.preheader
                                        #   in Loop: Header=BB14_3 Depth=1
	shufps	$136, 176(%rsp), %xmm0          # xmm0 = xmm0[0,2],mem[0,2]
	shufps	$136, 208(%rsp), %xmm1          # xmm1 = xmm1[0,2],mem[0,2]
	movq	%r13, %rax
	jmp	.LBB14_22
	.p2align	4
.LBB14_38:                              # %"summaries::ends::stepped.exit.i.i.i.i"
                                        #   in Loop: Header=BB14_22 Depth=2
	movdqa	160(%rsp), %xmm2
	movdqa	176(%rsp), %xmm3
	movdqa	%xmm3, 400(%rsp)
	movdqa	%xmm2, 384(%rsp)
	movdqu	%xmm3, 16(%rdx)
	movdqu	%xmm2, (%rdx)
	movq	%rax, %rcx
	shlq	$5, %rcx
	movq	480(%rsp), %rdx
	movups	%xmm0, (%rdx,%rcx)
	movups	%xmm1, 16(%rdx,%rcx)
	movq	48(%rsp), %r8                   # 8-byte Reload
	movq	24(%rsp), %rcx                  # 8-byte Reload
	movq	16(%rsp), %r10                  # 8-byte Reload
.LBB14_39:                              # %"summaries::ends::put_end.exit.i.i.i"
                                        #   in Loop: Header=BB14_22 Depth=2
	incq	%rax
	cmpq	%rbx, %rax
	je	.LBB14_40
.LBB14_22:                              # %join.5.i.i.i
                                        #   Parent Loop BB14_3 Depth=1
                                        # =>  This Loop Header: Depth=2
                                        #       Child Loop BB14_33 Depth 3
	cmpl	(%rcx,%rax,4), %r14d
	jne	.LBB14_39
# %bb.23:                               # %join.3.i.i10.i.i
                                        #   in Loop: Header=BB14_22 Depth=2
	testb	$1, %al
	jne	.LBB14_25
# %bb.24:                               # %then.1.i.i.i.i.i
                                        #   in Loop: Header=BB14_22 Depth=2
	movq	%rax, %rcx
	shrq	%rcx
	incq	%rcx
	jmp	.LBB14_26
	.p2align	4
.LBB14_25:                              # %join.3.i.i.i.i.i
                                        #   in Loop: Header=BB14_22 Depth=2
	movl	%eax, %edx
	andl	$131070, %edx                   # imm = 0x1FFFE
	movl	256(%rcx,%rdx,2), %ecx
.LBB14_26:                              # %"summaries::ends::home_of.exit.i.i.i.i"
                                        #   in Loop: Header=BB14_22 Depth=2
	movl	%eax, %edx
	shll	$4, %edx
	andl	$2097120, %edx                  # imm = 0x1FFFE0
	addq	88(%rsp), %rdx                  # 8-byte Folded Reload
	movdqu	(%rdx), %xmm2
	movdqu	16(%rdx), %xmm3
	movdqa	%xmm3, 176(%rsp)
	movdqa	%xmm2, 160(%rsp)
	cmpq	%rcx, %r8
	jbe	.LBB14_38
# %bb.27:                               # %join.5.i.i.i.i.i.preheader
                                        #   in Loop: Header=BB14_22 Depth=2
	movq	48(%rsp), %r8                   # 8-byte Reload
	movl	%r8d, %edi
	subl	%ecx, %edi
	leaq	1(%rcx), %rsi
	movq	%rcx, %r9
	testb	$1, %dil
	je	.LBB14_31
# %bb.28:                               # %join.5.i.i.i.i.i.prol
                                        #   in Loop: Header=BB14_22 Depth=2
	movq	24(%rsp), %r9                   # 8-byte Reload
	movl	256(%r9,%rcx,4), %edi
	cmpq	%rdi, %rcx
	jne	.LBB14_30
# %bb.29:                               # %then.6.i.i.i.i.i.prol
                                        #   in Loop: Header=BB14_22 Depth=2
	movzbl	4(%r9,%rcx,8), %edi
	movzbl	319(%rsp,%rdi), %edi
	movb	%dil, 160(%rsp,%rcx)
.LBB14_30:                              # %join.8.i.i.i.i.i.prol
                                        #   in Loop: Header=BB14_22 Depth=2
	movq	%rsi, %r9
.LBB14_31:                              # %join.5.i.i.i.i.i.prol.loopexit
                                        #   in Loop: Header=BB14_22 Depth=2
	cmpq	%rsi, %r8
	je	.LBB14_38
# %bb.32:                               # %join.5.i.i.i.i.i.preheader17
                                        #   in Loop: Header=BB14_22 Depth=2
	movq	48(%rsp), %rsi                  # 8-byte Reload
	subq	%r9, %rsi
	leaq	161(%rsp), %rdi
	addq	%r9, %rdi
	movq	8(%rsp), %r8                    # 8-byte Reload
	leaq	(%r8,%r9,8), %r8
	movq	(%rsp), %r10                    # 8-byte Reload
	leaq	(%r10,%r9,4), %r9
	xorl	%r10d, %r10d
	jmp	.LBB14_33
	.p2align	4
.LBB14_37:                              # %join.8.i.i.i.i.i.1
                                        #   in Loop: Header=BB14_33 Depth=3
	addq	$2, %r10
	cmpq	%r10, %rsi
	je	.LBB14_38
.LBB14_33:                              # %join.5.i.i.i.i.i
                                        #   Parent Loop BB14_3 Depth=1
                                        #     Parent Loop BB14_22 Depth=2
                                        # =>    This Inner Loop Header: Depth=3
	movl	-4(%r9,%r10,4), %r11d
	cmpq	%r11, %rcx
	je	.LBB14_34
# %bb.35:                               # %join.8.i.i.i.i.i
                                        #   in Loop: Header=BB14_33 Depth=3
	movl	(%r9,%r10,4), %r11d
	cmpq	%r11, %rcx
	jne	.LBB14_37
	jmp	.LBB14_36
	.p2align	4
.LBB14_34:                              # %then.6.i.i.i.i.i
                                        #   in Loop: Header=BB14_33 Depth=3
	movzbl	-8(%r8,%r10,8), %r11d
	movzbl	319(%rsp,%r11), %r11d
	movb	%r11b, -1(%rdi,%r10)
	movl	(%r9,%r10,4), %r11d
	cmpq	%r11, %rcx
	jne	.LBB14_37
.LBB14_36:                              # %then.6.i.i.i.i.i.1
                                        #   in Loop: Header=BB14_33 Depth=3
	movzbl	(%r8,%r10,8), %r11d
	movzbl	319(%rsp,%r11), %r11d
	movb	%r11b, (%rdi,%r10)
	jmp	.LBB14_37
.LBB14_1:                               # %"start.summaries::ends::see_ends.exit_crit_edge"
	imull	$63551, %r9d, %edi              # imm = 0xF83F
	shrl	$25, %edi
	jmp	.LBB14_42
.LBB14_41:
	movq	88(%rsp), %r14                  # 8-byte Reload
	movq	64(%rsp), %r9                   # 8-byte Reload
	movq	480(%rsp), %rbp
	movq	72(%rsp), %rdi                  # 8-byte Reload
.LBB14_42:                              # %"summaries::ends::see_ends.exit"
	movl	(%rcx), %ecx
	shrl	$8, %ecx
	movq	%rdi, %rax
	movq	%rdi, 72(%rsp)                  # 8-byte Spill
	je	.LBB14_47
# %bb.43:                               # %join.8.i.i.i.preheader
	xorl	%eax, %eax
	movq	40(%rsp), %rdx                  # 8-byte Reload
	.p2align	4
.LBB14_44:                              # %join.8.i.i.i
                                        # =>This Inner Loop Header: Depth=1
	movzwl	(%rdx), %esi
	cmpl	%esi, %ecx
	je	.LBB14_48
# %bb.45:                               # %join.11.i.i.i
                                        #   in Loop: Header=BB14_44 Depth=1
	incq	%rax
	addq	$528, %rdx                      # imm = 0x210
	cmpq	%rax, %rdi
	jne	.LBB14_44
# %bb.46:
	movq	%rdi, %rax
	jmp	.LBB14_47
.LBB14_48:                              # %"shelf::place_of.exit.i.i"
	cmpq	%rdi, %rax
	jbe	.LBB14_47
# %bb.49:
	xorl	%edx, %edx
	movq	%r9, %rsi
	jmp	.LBB14_50
.LBB14_47:                              # %join.3.i.i.i
	imulq	$528, %rax, %rax                # imm = 0x210
	movq	%r9, %rcx
	subq	%rax, %rcx
	movq	%rax, %rsi
	cmovbq	%r9, %rsi
	cmpq	$528, %rcx                      # imm = 0x210
	movl	$528, %edi                      # imm = 0x210
	cmovbq	%rcx, %rdi
	xorl	%edx, %edx
	cmpq	%rax, %r9
	cmovaeq	%rdi, %rdx
.LBB14_50:                              # %"summaries::ends::fields_at.exit.i"
	addq	40(%rsp), %rsi                  # 8-byte Folded Reload
	leaq	160(%rsp), %rdi
	callq	"summary::fields"
	movq	160(%rsp), %r9
	movq	176(%rsp), %r10
	movq	184(%rsp), %r12
	movq	192(%rsp), %rdi
	movq	200(%rsp), %rdx
	cmpq	$2, 48(%rsp)                    # 8-byte Folded Reload
	jb	.LBB14_51
# %bb.52:                               # %join.5.lr.ph.i8
	movq	%rdi, 120(%rsp)                 # 8-byte Spill
	movl	$1, %r15d
	jmp	.LBB14_53
	.p2align	4
.LBB14_71:                              #   in Loop: Header=BB14_53 Depth=1
	movq	%rdi, %rax
.LBB14_72:                              # %join.3.i.i40.i
                                        #   in Loop: Header=BB14_53 Depth=1
	imulq	$528, %rax, %rax                # imm = 0x210
	movq	64(%rsp), %r8                   # 8-byte Reload
	movq	%r8, %rcx
	subq	%rax, %rcx
	movq	%rax, %rsi
	cmovbq	%r8, %rsi
	cmpq	$528, %rcx                      # imm = 0x210
	movl	$528, %edi                      # imm = 0x210
	cmovbq	%rcx, %rdi
	xorl	%edx, %edx
	cmpq	%rax, %r8
	cmovaeq	%rdi, %rdx
.LBB14_75:                              # %"summaries::ends::fields_at.exit53.i"
                                        #   in Loop: Header=BB14_53 Depth=1
	addq	40(%rsp), %rsi                  # 8-byte Folded Reload
	leaq	160(%rsp), %rdi
	callq	"summary::fields"
	movq	160(%rsp), %rax
	movabsq	$1152921504606846975, %r11      # imm = 0xFFFFFFFFFFFFFFF
	andq	%r11, %rax
	movq	112(%rsp), %r9                  # 8-byte Reload
	andq	%r11, %r9
	addq	%rax, %r9
	movq	120(%rsp), %rcx                 # 8-byte Reload
	andq	%r11, %rcx
	movl	%ebx, %eax
	andl	$536870911, %eax                # imm = 0x1FFFFFFF
	addq	%rcx, %rax
	movq	32(%rsp), %rcx                  # 8-byte Reload
                                        # kill: def $ecx killed $ecx killed $rcx def $rcx
	andl	$536870911, %ecx                # imm = 0x1FFFFFFF
	andl	$536870911, %r12d               # imm = 0x1FFFFFFF
	imulq	%rcx, %r12
	andl	$536870911, %ebp                # imm = 0x1FFFFFFF
	addq	%rax, %rbp
	addq	%r12, %rbp
	movq	192(%rsp), %rax
	andq	%r11, %rax
	movq	%rbp, %rcx
	addq	%rax, %rcx
	movq	%rcx, 120(%rsp)                 # 8-byte Spill
	movq	304(%rsp), %rcx                 # 8-byte Reload
	andq	%r11, %rcx
	movq	(%rsp), %rax                    # 8-byte Reload
                                        # kill: def $eax killed $eax killed $rax def $rax
	andl	$536870911, %eax                # imm = 0x1FFFFFFF
	andl	$536870911, %r13d               # imm = 0x1FFFFFFF
	movq	%r13, 112(%rsp)                 # 8-byte Spill
	movq	%rax, %rdx
	imulq	%r13, %rdx
	addq	%rcx, %rdx
	movq	8(%rsp), %rcx                   # 8-byte Reload
                                        # kill: def $ecx killed $ecx killed $rcx def $rcx
	andl	$536870911, %ecx                # imm = 0x1FFFFFFF
	movq	96(%rsp), %rbp                  # 8-byte Reload
	andl	$536870911, %ebp                # imm = 0x1FFFFFFF
	movq	%rcx, %rsi
	imulq	%rbp, %rsi
	addq	%rdx, %rsi
	movq	16(%rsp), %r11                  # 8-byte Reload
	movl	%r11d, %edi
	andl	$536870911, %edi                # imm = 0x1FFFFFFF
	movq	56(%rsp), %rdx                  # 8-byte Reload
                                        # kill: def $edx killed $edx killed $rdx def $rdx
	andl	$536870911, %edx                # imm = 0x1FFFFFFF
	movq	128(%rsp), %r13                 # 8-byte Reload
	andl	$536870911, %r13d               # imm = 0x1FFFFFFF
	movq	104(%rsp), %r12                 # 8-byte Reload
	andl	$536870911, %r12d               # imm = 0x1FFFFFFF
	addq	%rax, %rdi
	movq	%rdi, %r8
	imulq	%r12, %r8
	movq	%rbp, %r10
	addq	%r13, %r10
	imulq	%rdx, %r10
	addq	%r8, %r10
	addq	%rsi, %r10
	movq	176(%rsp), %rsi
	movabsq	$1152921504606846975, %r8       # imm = 0xFFFFFFFFFFFFFFF
	andq	%r8, %rsi
	addq	%rsi, %r10
	imulq	%rbp, %rdi
	imulq	%r13, %rax
	movq	296(%rsp), %rsi                 # 8-byte Reload
	andq	%r8, %rsi
	addq	%rsi, %rax
	addq	%rdi, %rax
	imulq	%r12, %rcx
	addq	112(%rsp), %r12                 # 8-byte Folded Reload
	imulq	%rdx, %r12
	addq	%rcx, %r12
	movq	184(%rsp), %rcx
	andq	%r8, %rcx
	addq	%rax, %r12
	movq	200(%rsp), %rax
	andq	%r8, %rax
	movq	312(%rsp), %rdx                 # 8-byte Reload
	andq	%r8, %rdx
	addq	%rcx, %r12
	movq	80(%rsp), %rdi                  # 8-byte Reload
	movl	%edi, %ecx
	andl	$536870911, %ecx                # imm = 0x1FFFFFFF
	movq	136(%rsp), %r8                  # 8-byte Reload
	andl	$536870911, %r8d                # imm = 0x1FFFFFFF
	cmpq	%rax, %rdx
	cmovbeq	%rax, %rdx
	leaq	(%rcx,%r8), %rax
	incq	%rax
	cmpq	%rax, %rdx
	cmovbeq	%rax, %rdx
	movq	152(%rsp), %rax                 # 8-byte Reload
	movq	144(%rsp), %rcx                 # 8-byte Reload
	movq	480(%rsp), %rbp
	movl	%ecx, 32(%rbp,%rax)
	movl	%r11d, 36(%rbp,%rax)
	movq	8(%rsp), %rcx                   # 8-byte Reload
	movl	%ecx, 40(%rbp,%rax)
	movq	(%rsp), %rcx                    # 8-byte Reload
	movl	%ecx, 44(%rbp,%rax)
	movq	56(%rsp), %rcx                  # 8-byte Reload
	movl	%ecx, 48(%rbp,%rax)
	movq	32(%rsp), %rcx                  # 8-byte Reload
	movl	%ecx, 52(%rbp,%rax)
	movl	%ebx, 56(%rbp,%rax)
	movl	%edi, 60(%rbp,%rax)
	incq	%r15
	cmpq	48(%rsp), %r15                  # 8-byte Folded Reload
	je	.LBB14_76
.LBB14_53:                              # %join.5.i9
                                        # =>This Loop Header: Depth=1
                                        #     Child Loop BB14_59 Depth 2
                                        #       Child Loop BB14_64 Depth 3
                                        #     Child Loop BB14_69 Depth 2
	movq	%r12, 296(%rsp)                 # 8-byte Spill
	movq	%r10, 304(%rsp)                 # 8-byte Spill
	movq	%r9, 112(%rsp)                  # 8-byte Spill
	movq	%rdx, 312(%rsp)                 # 8-byte Spill
	movq	24(%rsp), %rax                  # 8-byte Reload
	movl	256(%rax,%r15,4), %edx
	movq	%r15, %rax
	shlq	$6, %rax
	movq	%rdx, %r8
	movl	32(%rbp,%rax), %r12d
	movl	36(%rbp,%rax), %r11d
	movl	40(%rbp,%rax), %esi
	movl	44(%rbp,%rax), %r13d
	movl	48(%rbp,%rax), %r9d
	movl	52(%rbp,%rax), %ecx
	movl	56(%rbp,%rax), %edi
	movq	%rax, 152(%rsp)                 # 8-byte Spill
	movl	60(%rbp,%rax), %ebx
	decq	%r8
	movq	%r15, 104(%rsp)                 # 8-byte Spill
	movq	%rdx, 96(%rsp)                  # 8-byte Spill
	je	.LBB14_54
# %bb.55:                               # %join.3.i.i13.i
                                        #   in Loop: Header=BB14_53 Depth=1
	movq	%r8, %rax
	shlq	$5, %rax
	addq	%r14, %rax
	movq	%rsi, 8(%rsp)                   # 8-byte Spill
	movzbl	(%r15,%rax), %edx
	movq	%rdx, 56(%rsp)                  # 8-byte Spill
	xorl	%eax, %eax
	cmpq	$1, %rdx
	sete	%al
	movq	%rax, 16(%rsp)                  # 8-byte Spill
	shlq	$6, %r8
	movq	%r11, %rsi
	movl	36(%rbp,%r8), %r11d
	movl	40(%rbp,%r8), %r10d
	movl	44(%rbp,%r8), %eax
	movl	48(%rbp,%r8), %edx
	movq	%r13, (%rsp)                    # 8-byte Spill
	movq	%rcx, %r13
	movq	%r9, %rcx
	movl	52(%rbp,%r8), %r9d
	movl	60(%rbp,%r8), %r8d
	andl	$536870911, %r12d               # imm = 0x1FFFFFFF
	andl	$536870911, %esi                # imm = 0x1FFFFFFF
	movq	8(%rsp), %r15                   # 8-byte Reload
	andl	$536870911, %r15d               # imm = 0x1FFFFFFF
	movq	%r15, 8(%rsp)                   # 8-byte Spill
	movq	(%rsp), %r15                    # 8-byte Reload
	andl	$536870911, %r15d               # imm = 0x1FFFFFFF
	movq	%r15, (%rsp)                    # 8-byte Spill
	andl	$536870911, %ecx                # imm = 0x1FFFFFFF
	andl	$536870911, %r13d               # imm = 0x1FFFFFFF
	movq	%r13, 32(%rsp)                  # 8-byte Spill
	andl	$536870911, %edi                # imm = 0x1FFFFFFF
	andl	$536870911, %ebx                # imm = 0x1FFFFFFF
	movq	%rbx, 80(%rsp)                  # 8-byte Spill
	andl	$536870911, %r11d               # imm = 0x1FFFFFFF
	andl	$536870911, %r10d               # imm = 0x1FFFFFFF
	andl	$536870911, %eax                # imm = 0x1FFFFFFF
	andl	$536870911, %edx                # imm = 0x1FFFFFFF
	andl	$536870911, %r9d                # imm = 0x1FFFFFFF
	andl	$536870911, %r8d                # imm = 0x1FFFFFFF
	movq	56(%rsp), %r15                  # 8-byte Reload
	testb	$1, %r15b
	movq	%rsi, %rbp
	movq	%rax, %rbx
	cmoveq	%rdx, %rbx
	cmoveq	%rax, %rdx
	leaq	1(%r15), %rax
	movq	%r15, %rsi
	movq	%r11, %r15
	cmoveq	%r10, %r15
	cmoveq	%r11, %r10
	movq	%rbx, %r11
	imulq	%rax, %r11
	addq	%r15, %r11
	imulq	%rdx, %rax
	addq	%r10, %rax
	xorl	%r15d, %r15d
	xorl	%r10d, %r10d
	testq	%rsi, %rsi
	cmoveq	%r9, %r15
	movq	%rcx, %r9
	movq	(%rsp), %r13                    # 8-byte Reload
	sete	%r10b
	movq	16(%rsp), %rcx                  # 8-byte Reload
	addq	%rdi, %rcx
	addq	%r15, %rcx
	movq	%rcx, %rdi
	movq	104(%rsp), %r15                 # 8-byte Reload
	leaq	(%rsi,%r8), %rcx
	incq	%rcx
	movq	8(%rsp), %rsi                   # 8-byte Reload
	addq	%rax, %r12
	addq	%r11, %r12
	addq	%r11, %rbp
	movq	%rbp, 16(%rsp)                  # 8-byte Spill
	addq	%rax, %rsi
	addq	%rbx, %r13
	addq	%rdx, %r9
	movq	32(%rsp), %r8                   # 8-byte Reload
	addq	%r10, %r8
	movq	80(%rsp), %rax                  # 8-byte Reload
	cmpq	%rcx, %rax
	cmovbeq	%rcx, %rax
	movq	%rax, %rcx
	movq	96(%rsp), %rdx                  # 8-byte Reload
	movq	%r8, %rax
	jmp	.LBB14_56
	.p2align	4
.LBB14_54:                              #   in Loop: Header=BB14_53 Depth=1
	movq	%r11, 16(%rsp)                  # 8-byte Spill
	movq	%rcx, %rax
	movq	%rbx, %rcx
.LBB14_56:                              # %"summaries::joins::begun.exit.i.i"
                                        #   in Loop: Header=BB14_53 Depth=1
	movq	%rcx, 80(%rsp)                  # 8-byte Spill
	movq	%rax, 32(%rsp)                  # 8-byte Spill
	movq	%r9, 56(%rsp)                   # 8-byte Spill
	movq	%r12, 144(%rsp)                 # 8-byte Spill
	movq	%r13, (%rsp)                    # 8-byte Spill
	movq	%rsi, 8(%rsp)                   # 8-byte Spill
	cmpq	%rdx, %r15
	jbe	.LBB14_57
# %bb.58:                               # %join.5.i.i.preheader
                                        #   in Loop: Header=BB14_53 Depth=1
	movq	%rdx, %rcx
	movq	24(%rsp), %rsi                  # 8-byte Reload
	jmp	.LBB14_59
	.p2align	4
.LBB14_60:                              # %then.1.i19.i.i
                                        #   in Loop: Header=BB14_59 Depth=2
	movq	488(%rsp), %rdi
	movq	-8(%rdi,%rax,8), %rsi
	decq	%rax
	shlq	$5, %rax
	addq	%r14, %rax
	movzbl	(%rcx,%rax), %eax
	addq	%rsi, %rax
	incq	%rax
	movq	480(%rsp), %r12
.LBB14_66:                              # %"summaries::joins::apart_kept.exit.i.i"
                                        #   in Loop: Header=BB14_59 Depth=2
	movq	%rax, (%rdi,%rcx,8)
	movq	%rcx, %rdi
	shlq	$6, %rdi
	movl	4(%r12,%rdi), %r11d
	movl	8(%r12,%rdi), %r9d
	movl	12(%r12,%rdi), %ebx
	movl	16(%r12,%rdi), %r8d
	movl	20(%r12,%rdi), %r15d
	movl	28(%r12,%rdi), %r14d
	movq	144(%rsp), %rdx                 # 8-byte Reload
	andl	$536870911, %edx                # imm = 0x1FFFFFFF
	movq	16(%rsp), %rsi                  # 8-byte Reload
	andl	$536870911, %esi                # imm = 0x1FFFFFFF
	movq	%rsi, 16(%rsp)                  # 8-byte Spill
	movq	8(%rsp), %rbp                   # 8-byte Reload
	andl	$536870911, %ebp                # imm = 0x1FFFFFFF
	movq	(%rsp), %r13                    # 8-byte Reload
	andl	$536870911, %r13d               # imm = 0x1FFFFFFF
	movq	56(%rsp), %r12                  # 8-byte Reload
	andl	$536870911, %r12d               # imm = 0x1FFFFFFF
	movq	32(%rsp), %rdi                  # 8-byte Reload
	andl	$536870911, %edi                # imm = 0x1FFFFFFF
	movq	%rcx, 128(%rsp)                 # 8-byte Spill
	movq	136(%rsp), %rcx                 # 8-byte Reload
	andl	$536870911, %ecx                # imm = 0x1FFFFFFF
	movq	80(%rsp), %rsi                  # 8-byte Reload
	andl	$536870911, %esi                # imm = 0x1FFFFFFF
	movl	%eax, %r10d
	andl	$536870911, %r10d               # imm = 0x1FFFFFFF
	andl	$536870911, %r11d               # imm = 0x1FFFFFFF
	andl	$536870911, %r9d                # imm = 0x1FFFFFFF
	andl	$536870911, %ebx                # imm = 0x1FFFFFFF
	andl	$536870911, %r8d                # imm = 0x1FFFFFFF
	andl	$536870911, %r15d               # imm = 0x1FFFFFFF
	movq	%r15, (%rsp)                    # 8-byte Spill
	andl	$536870911, %r14d               # imm = 0x1FFFFFFF
	movq	%r14, 8(%rsp)                   # 8-byte Spill
	testb	$1, %al
	movq	%rbx, %rax
	cmoveq	%r8, %rax
	leaq	1(%r10), %r15
	cmoveq	%rbx, %r8
	movq	%r11, %rbx
	cmoveq	%r9, %rbx
	cmoveq	%r11, %r9
	movq	%rax, %r11
	imulq	%r15, %r11
	addq	%rbx, %r11
	imulq	%r8, %r15
	addq	%r9, %r15
	xorl	%r14d, %r14d
	xorl	%r9d, %r9d
	testq	%r10, %r10
	sete	%r9b
	cmoveq	(%rsp), %r14                    # 8-byte Folded Reload
	xorl	%ebx, %ebx
	cmpq	$1, %r10
	sete	%bl
	addq	%rcx, %rbx
	addq	%r14, %rbx
	movq	8(%rsp), %rcx                   # 8-byte Reload
	addq	%r10, %rcx
	incq	%rcx
	addq	%r15, %rdx
	addq	%r11, %rdx
	movq	%rdx, 144(%rsp)                 # 8-byte Spill
	addq	%r11, 16(%rsp)                  # 8-byte Folded Spill
	addq	%r15, %rbp
	movq	%rbp, 8(%rsp)                   # 8-byte Spill
	addq	%rax, %r13
	movq	%r13, (%rsp)                    # 8-byte Spill
	addq	%r8, %r12
	movq	%r12, 56(%rsp)                  # 8-byte Spill
	addq	%r9, %rdi
	movq	%rdi, 32(%rsp)                  # 8-byte Spill
	cmpq	%rcx, %rsi
	cmovbeq	%rcx, %rsi
	movq	128(%rsp), %rcx                 # 8-byte Reload
	movq	%rsi, 80(%rsp)                  # 8-byte Spill
	incq	%rcx
	movq	%rbx, %rdi
	movq	104(%rsp), %r15                 # 8-byte Reload
	cmpq	%r15, %rcx
	movq	88(%rsp), %r14                  # 8-byte Reload
	movq	24(%rsp), %rsi                  # 8-byte Reload
	movq	96(%rsp), %rdx                  # 8-byte Reload
	je	.LBB14_67
.LBB14_59:                              # %join.5.i.i
                                        #   Parent Loop BB14_53 Depth=1
                                        # =>  This Loop Header: Depth=2
                                        #       Child Loop BB14_64 Depth 3
	movl	256(%rsi,%rcx,4), %eax
	cmpl	%eax, %edx
	movq	%rdi, 136(%rsp)                 # 8-byte Spill
	jb	.LBB14_60
# %bb.61:                               # %join.3.i15.i.i
                                        #   in Loop: Header=BB14_59 Depth=2
	movl	256(%rsi,%r15,4), %r8d
	xorl	%esi, %esi
	cmpl	%r8d, %eax
	jne	.LBB14_63
# %bb.62:                               #   in Loop: Header=BB14_59 Depth=2
	movq	%r15, %rdi
	movq	%rcx, %r9
	jmp	.LBB14_65
	.p2align	4
.LBB14_63:                              # %join.5.i.i.i.i15.preheader
                                        #   in Loop: Header=BB14_59 Depth=2
	movq	%rcx, %r10
	movq	%r15, %rdi
	movq	24(%rsp), %r12                  # 8-byte Reload
	.p2align	4
.LBB14_64:                              # %join.5.i.i.i.i15
                                        #   Parent Loop BB14_53 Depth=1
                                        #     Parent Loop BB14_59 Depth=2
                                        # =>    This Inner Loop Header: Depth=3
	movl	%r8d, %r11d
	decq	%r11
	movq	%r11, %rbx
	shlq	$5, %rbx
	addq	%r14, %rbx
	addq	%rdi, %rbx
	movl	%eax, %r9d
	decq	%r9
	movq	%r9, %r15
	shlq	$5, %r15
	movq	88(%rsp), %r14                  # 8-byte Reload
	addq	%r10, %r14
	addq	%r14, %r15
	movq	88(%rsp), %r14                  # 8-byte Reload
	cmpl	%r8d, %eax
	cmovbq	%rbx, %r15
	cmovbq	%r10, %rdi
	cmovbq	%r11, %r9
	movzbl	(%r15), %eax
	leaq	1(%rsi,%rax), %rsi
	movl	256(%r12,%r9,4), %eax
	movl	256(%r12,%rdi,4), %r8d
	movq	%r9, %r10
	cmpl	%r8d, %eax
	jne	.LBB14_64
.LBB14_65:                              # %"summaries::joins::apart.exit.i.i.i"
                                        #   in Loop: Header=BB14_59 Depth=2
	shlq	$5, %r9
	addq	%r14, %r9
	movzbl	(%rdi,%r9), %eax
	addq	%rsi, %rax
	movq	480(%rsp), %r12
	movq	488(%rsp), %rdi
	jmp	.LBB14_66
	.p2align	4
.LBB14_57:                              #   in Loop: Header=BB14_53 Depth=1
	movq	%rdi, %rbx
	movq	24(%rsp), %rsi                  # 8-byte Reload
.LBB14_67:                              # %"summaries::joins::core_of.exit.i"
                                        #   in Loop: Header=BB14_53 Depth=1
	movq	152(%rsp), %rax                 # 8-byte Reload
	movq	480(%rsp), %rdx
	movl	4(%rdx,%rax), %ecx
	movq	%rcx, 128(%rsp)                 # 8-byte Spill
	movl	8(%rdx,%rax), %r13d
	movl	12(%rdx,%rax), %ecx
	movq	%rcx, 96(%rsp)                  # 8-byte Spill
	movl	16(%rdx,%rax), %ecx
	movq	%rcx, 104(%rsp)                 # 8-byte Spill
	movl	20(%rdx,%rax), %r12d
	movl	24(%rdx,%rax), %ebp
	movl	28(%rdx,%rax), %eax
	movq	%rax, 136(%rsp)                 # 8-byte Spill
	movl	(%rsi,%r15,8), %ecx
	shrl	$8, %ecx
	movq	72(%rsp), %rdi                  # 8-byte Reload
	movq	%rdi, %rax
	je	.LBB14_72
# %bb.68:                               # %join.8.i.i31.i.preheader
                                        #   in Loop: Header=BB14_53 Depth=1
	xorl	%eax, %eax
	movq	40(%rsp), %rdx                  # 8-byte Reload
	.p2align	4
.LBB14_69:                              # %join.8.i.i31.i
                                        #   Parent Loop BB14_53 Depth=1
                                        # =>  This Inner Loop Header: Depth=2
	movzwl	(%rdx), %esi
	cmpl	%esi, %ecx
	je	.LBB14_73
# %bb.70:                               # %join.11.i.i37.i
                                        #   in Loop: Header=BB14_69 Depth=2
	incq	%rax
	addq	$528, %rdx                      # imm = 0x210
	cmpq	%rax, %rdi
	jne	.LBB14_69
	jmp	.LBB14_71
	.p2align	4
.LBB14_73:                              # %"shelf::place_of.exit.i51.i"
                                        #   in Loop: Header=BB14_53 Depth=1
	cmpq	%rdi, %rax
	jbe	.LBB14_72
# %bb.74:                               #   in Loop: Header=BB14_53 Depth=1
	xorl	%edx, %edx
	movq	64(%rsp), %rsi                  # 8-byte Reload
	jmp	.LBB14_75
.LBB14_51:
	movq	168(%rsp), %rax
	jmp	.LBB14_77
.LBB14_76:                              # %loop.2.after.1_crit_edge.i
	leaq	(%r12,%r10), %rax
	movq	120(%rsp), %rdi                 # 8-byte Reload
.LBB14_77:                              # %"summaries::joins::composed.exit"
	movq	288(%rsp), %rcx                 # 8-byte Reload
	movq	%r9, (%rcx)
	movq	%rax, 8(%rcx)
	movq	%r10, 16(%rcx)
	movq	%r12, 24(%rcx)
	movq	%rdi, 32(%rcx)
	movq	%rdx, 40(%rcx)
	addq	$424, %rsp                      # imm = 0x1A8
	popq	%rbx
	popq	%r12
	popq	%r13
	popq	%r14
	popq	%r15
	popq	%rbp
	retq
.Lfunc_end14:
	.size	"summaries::by_rows", .Lfunc_end14-"summaries::by_rows"
                                        # -- End function
	.section	".text.summary::seen","ax",@progbits
	.p2align	4                               # -- Begin function summary::seen
	.type	"summary::seen",@function
"summary::seen":                        # @"summary::seen"
# %bb.0:                                # %start
	pushq	%rbp
	pushq	%r15
	pushq	%r14
	pushq	%r13
	pushq	%r12
	pushq	%rbx
	movq	%rdx, %rax
	subq	$16, %rax
	movl	$16, %r9d
	cmovbq	%rdx, %r9
	cmpq	$512, %rax                      # imm = 0x200
	movl	$512, %r8d                      # imm = 0x200
	cmovbq	%rax, %r8
	xorl	%r12d, %r12d
	cmpq	$16, %rdx
	cmovaeq	%r8, %r12
	cmpq	$2, %rdx
	jbe	.LBB15_1
# %bb.2:                                # %"summary::atoms.exit"
	movzbl	2(%rsi), %eax
	cmpb	$64, %al
	movl	$64, %edx
	cmovbl	%eax, %edx
	movzbl	%dl, %r10d
	decq	%rcx
	xorps	%xmm0, %xmm0
	movaps	%xmm0, -24(%rsp)
	movaps	%xmm0, -40(%rsp)
	movaps	%xmm0, -56(%rsp)
	movaps	%xmm0, -72(%rsp)
	cmpq	%r10, %rcx
	jae	.LBB15_3
# %bb.4:                                # %join.5.lr.ph.i.i
	movl	%r10d, %eax
	negb	%al
	movq	$-1, %rbx
	movq	%rcx, %rdx
	movl	%eax, %ecx
	shrq	%cl, %rbx
	movl	$1, %r8d
	movl	%edx, %ecx
	shlq	%cl, %r8
	addq	%r9, %rsi
	btcq	%rdx, %rbx
	cmpq	$512, %r12                      # imm = 0x200
	movq	%rdi, -112(%rsp)                # 8-byte Spill
	movq	%r10, -96(%rsp)                 # 8-byte Spill
	jae	.LBB15_5
# %bb.11:                               # %join.5.us.i.i.preheader
	leaq	-8(%r12), %r13
	xorl	%eax, %eax
	movq	$0, -104(%rsp)                  # 8-byte Folded Spill
	xorl	%r14d, %r14d
	xorl	%r10d, %r10d
	xorl	%ecx, %ecx
	xorl	%r11d, %r11d
	xorl	%edx, %edx
	.p2align	4
.LBB15_12:                              # %join.5.us.i.i
                                        # =>This Loop Header: Depth=1
                                        #     Child Loop BB15_13 Depth 2
	movq	%rbx, -88(%rsp)                 # 8-byte Spill
	movq	%r14, -80(%rsp)                 # 8-byte Spill
	movq	%rcx, -120(%rsp)                # 8-byte Spill
	movq	%r8, %r15
	movl	%eax, %ebx
	andl	$1, %ebx
	movq	%rax, %rdi
	imulq	%rbx, %rdi
	xorl	%r8d, %r8d
	xorl	%ebp, %ebp
	jmp	.LBB15_13
	.p2align	4
.LBB15_15:                              # %then.1.i.i.us.us.i.i
                                        #   in Loop: Header=BB15_13 Depth=2
	movq	(%rsi,%r14), %rcx
.LBB15_34:                              # %"sighted::set_at.exit.us.us.i.i"
                                        #   in Loop: Header=BB15_13 Depth=2
	orq	%rcx, %r8
	leaq	-1(%r15), %rcx
	andq	%rcx, %r15
	incq	%rbp
	addq	%rbx, %r10
	addq	%rdi, %r11
	addq	%rax, %rdx
	testq	%r15, %r15
	je	.LBB15_35
.LBB15_13:                              # %join.5.i.us.us.i.i
                                        #   Parent Loop BB15_12 Depth=1
                                        # =>  This Inner Loop Header: Depth=2
	rep		bsfq	%r15, %rcx
	leal	(,%rcx,8), %r14d
	movb	%al, -72(%rsp,%rcx)
	cmpq	$8, %r12
	jb	.LBB15_16
# %bb.14:                               # %join.5.i.us.us.i.i
                                        #   in Loop: Header=BB15_13 Depth=2
	cmpq	%r13, %r14
	jbe	.LBB15_15
.LBB15_16:                              # %join.6.i.i.us.us.i.i
                                        #   in Loop: Header=BB15_13 Depth=2
	cmpq	%r14, %r12
	jbe	.LBB15_17
# %bb.18:                               # %join.8.i.i.preheader.i.us.us.i.i
                                        #   in Loop: Header=BB15_13 Depth=2
	movq	%r14, %r9
	orq	$7, %r9
	cmpq	%r12, %r9
	jae	.LBB15_19
# %bb.20:                               # %then.1.i.i.i.i.us.us.i.i
                                        #   in Loop: Header=BB15_13 Depth=2
	movzbl	(%rsi,%r9), %r9d
	shll	$8, %r9d
	movq	%r14, %rcx
	orq	$6, %rcx
	cmpq	%r12, %rcx
	jb	.LBB15_22
	jmp	.LBB15_23
	.p2align	4
.LBB15_17:                              #   in Loop: Header=BB15_13 Depth=2
	xorl	%ecx, %ecx
	jmp	.LBB15_34
.LBB15_19:                              #   in Loop: Header=BB15_13 Depth=2
	xorl	%r9d, %r9d
	movq	%r14, %rcx
	orq	$6, %rcx
	cmpq	%r12, %rcx
	jae	.LBB15_23
.LBB15_22:                              # %then.1.i.i.i.1.i.us.us.i.i
                                        #   in Loop: Header=BB15_13 Depth=2
	movzbl	(%rsi,%rcx), %ecx
	orq	%rcx, %r9
.LBB15_23:                              # %"records::byte_at.exit.i.i.1.i.us.us.i.i"
                                        #   in Loop: Header=BB15_13 Depth=2
	shll	$8, %r9d
	movq	%r14, %rcx
	orq	$5, %rcx
	cmpq	%r12, %rcx
	jae	.LBB15_25
# %bb.24:                               # %then.1.i.i.i.2.i.us.us.i.i
                                        #   in Loop: Header=BB15_13 Depth=2
	movzbl	(%rsi,%rcx), %ecx
	orq	%rcx, %r9
.LBB15_25:                              # %"records::byte_at.exit.i.i.2.i.us.us.i.i"
                                        #   in Loop: Header=BB15_13 Depth=2
	shll	$8, %r9d
	movq	%r14, %rcx
	orq	$4, %rcx
	cmpq	%r12, %rcx
	jae	.LBB15_27
# %bb.26:                               # %then.1.i.i.i.3.i.us.us.i.i
                                        #   in Loop: Header=BB15_13 Depth=2
	movzbl	(%rsi,%rcx), %ecx
	orq	%rcx, %r9
.LBB15_27:                              # %"records::byte_at.exit.i.i.3.i.us.us.i.i"
                                        #   in Loop: Header=BB15_13 Depth=2
	shlq	$8, %r9
	movq	%r14, %rcx
	orq	$3, %rcx
	cmpq	%r12, %rcx
	jae	.LBB15_29
# %bb.28:                               # %then.1.i.i.i.4.i.us.us.i.i
                                        #   in Loop: Header=BB15_13 Depth=2
	movzbl	(%rsi,%rcx), %ecx
	orq	%rcx, %r9
.LBB15_29:                              # %"records::byte_at.exit.i.i.4.i.us.us.i.i"
                                        #   in Loop: Header=BB15_13 Depth=2
	shlq	$8, %r9
	movq	%r14, %rcx
	orq	$2, %rcx
	cmpq	%r12, %rcx
	jae	.LBB15_31
# %bb.30:                               # %then.1.i.i.i.5.i.us.us.i.i
                                        #   in Loop: Header=BB15_13 Depth=2
	movzbl	(%rsi,%rcx), %ecx
	orq	%rcx, %r9
.LBB15_31:                              # %"records::byte_at.exit.i.i.5.i.us.us.i.i"
                                        #   in Loop: Header=BB15_13 Depth=2
	shlq	$8, %r9
	movq	%r14, %rcx
	orq	$1, %rcx
	cmpq	%r12, %rcx
	jae	.LBB15_33
# %bb.32:                               # %then.1.i.i.i.6.i.us.us.i.i
                                        #   in Loop: Header=BB15_13 Depth=2
	movzbl	(%rsi,%rcx), %ecx
	orq	%rcx, %r9
.LBB15_33:                              # %"records::byte_at.exit.i.i.7.i.us.us.i.i"
                                        #   in Loop: Header=BB15_13 Depth=2
	shlq	$8, %r9
	movzbl	(%rsi,%r14), %ecx
	orq	%r9, %rcx
	jmp	.LBB15_34
	.p2align	4
.LBB15_35:                              # %"sighted::look.exit.split.us.us.i.i"
                                        #   in Loop: Header=BB15_12 Depth=1
	xorl	%ecx, %ecx
	cmpq	$1, %rax
	movl	$0, %edi
	cmoveq	%rbp, %rdi
	movq	-80(%rsp), %r14                 # 8-byte Reload
	addq	%rdi, %r14
	cmpq	$2, %rax
	cmoveq	%rbp, %rcx
	addq	%rcx, -104(%rsp)                # 8-byte Folded Spill
	movq	-88(%rsp), %rbx                 # 8-byte Reload
	andq	%rbx, %r8
	incq	%rax
	testq	%r8, %r8
	movq	-120(%rsp), %r15                # 8-byte Reload
	je	.LBB15_37
# %bb.36:                               # %"sighted::look.exit.split.us.us.i.i"
                                        #   in Loop: Header=BB15_12 Depth=1
	leaq	(%r15,%rbp), %rcx
	xorq	%r8, %rbx
	cmpq	-96(%rsp), %rax                 # 8-byte Folded Reload
	jb	.LBB15_12
.LBB15_37:                              # %"sighted::see.exit.loopexit"
	addq	%rbp, %r15
	movq	-112(%rsp), %rdi                # 8-byte Reload
	movq	-104(%rsp), %r13                # 8-byte Reload
	jmp	.LBB15_38
.LBB15_1:                               # %"summary::atoms.exit.thread"
	xorps	%xmm0, %xmm0
	movaps	%xmm0, -24(%rsp)
	movaps	%xmm0, -40(%rsp)
	movaps	%xmm0, -56(%rsp)
	movaps	%xmm0, -72(%rsp)
.LBB15_3:
	xorl	%edx, %edx
	xorl	%r11d, %r11d
	xorl	%r15d, %r15d
	xorl	%r10d, %r10d
	xorl	%r14d, %r14d
	xorl	%r13d, %r13d
	xorl	%eax, %eax
.LBB15_38:                              # %"sighted::see.exit"
	cmpq	$1, %rax
	adcq	$-1, %rax
	subq	%r10, %r15
	movq	%rdx, (%rdi)
	subq	%r11, %rdx
	movq	%rdx, 8(%rdi)
	movq	%r11, 16(%rdi)
	movq	%r15, 24(%rdi)
	movq	%r10, 32(%rdi)
	movq	%r14, 40(%rdi)
	movq	%r13, 48(%rdi)
	movq	%rax, 56(%rdi)
	movaps	-72(%rsp), %xmm0
	movaps	-56(%rsp), %xmm1
	movaps	-40(%rsp), %xmm2
	movaps	-24(%rsp), %xmm3
	movups	%xmm0, 64(%rdi)
	movups	%xmm1, 80(%rdi)
	movups	%xmm2, 96(%rdi)
	movups	%xmm3, 112(%rdi)
	popq	%rbx
	popq	%r12
	popq	%r13
	popq	%r14
	popq	%r15
	popq	%rbp
	retq
.LBB15_5:                               # %join.5.i.i.preheader
	xorl	%eax, %eax
	xorl	%r13d, %r13d
	xorl	%r14d, %r14d
	xorl	%r10d, %r10d
	xorl	%r9d, %r9d
	xorl	%r11d, %r11d
	xorl	%edx, %edx
	.p2align	4
.LBB15_6:                               # %join.5.i.i
                                        # =>This Loop Header: Depth=1
                                        #     Child Loop BB15_7 Depth 2
	movq	%rbx, %rdi
	movq	%r14, %rbp
	movq	%r9, -120(%rsp)                 # 8-byte Spill
	movq	%r8, %rbx
	movl	%eax, %r12d
	andl	$1, %r12d
	movq	%rax, %r9
	imulq	%r12, %r9
	xorl	%r8d, %r8d
	xorl	%ecx, %ecx
	.p2align	4
.LBB15_7:                               # %join.5.i.i.i
                                        #   Parent Loop BB15_6 Depth=1
                                        # =>  This Inner Loop Header: Depth=2
	movq	%rbx, %r14
	addq	%r9, %r11
	rep		bsfq	%rbx, %r15
	decq	%rbx
	movb	%al, -72(%rsp,%r15)
	orq	(%rsi,%r15,8), %r8
	incq	%rcx
	addq	%r12, %r10
	addq	%rax, %rdx
	andq	%r14, %rbx
	jne	.LBB15_7
# %bb.8:                                # %"sighted::look.exit.split.i.i"
                                        #   in Loop: Header=BB15_6 Depth=1
	xorl	%ebx, %ebx
	cmpq	$1, %rax
	movl	$0, %r9d
	cmoveq	%rcx, %r9
	movq	%rbp, %r14
	addq	%r9, %r14
	cmpq	$2, %rax
	cmoveq	%rcx, %rbx
	addq	%rbx, %r13
	andq	%rdi, %r8
	incq	%rax
	testq	%r8, %r8
	movq	-120(%rsp), %r15                # 8-byte Reload
	je	.LBB15_10
# %bb.9:                                # %"sighted::look.exit.split.i.i"
                                        #   in Loop: Header=BB15_6 Depth=1
	movq	%rdi, %rbx
	leaq	(%r15,%rcx), %r9
	xorq	%r8, %rbx
	cmpq	-96(%rsp), %rax                 # 8-byte Folded Reload
	jb	.LBB15_6
.LBB15_10:                              # %"sighted::see.exit.loopexit10"
	addq	%rcx, %r15
	movq	-112(%rsp), %rdi                # 8-byte Reload
	jmp	.LBB15_38
.Lfunc_end15:
	.size	"summary::seen", .Lfunc_end15-"summary::seen"
                                        # -- End function
	.section	".text.summary::fields","ax",@progbits
	.p2align	4                               # -- Begin function summary::fields
	.type	"summary::fields",@function
"summary::fields":                      # @"summary::fields"
# %bb.0:                                # %start
	cmpq	$7, %rdx
	jbe	.LBB16_1
# %bb.8:                                # %"records::little::little_at.exit"
	movl	4(%rsi), %eax
	cmpq	$11, %rdx
	jbe	.LBB16_9
# %bb.17:                               # %"summary::atoms.exit"
	movl	8(%rsi), %ecx
	movzbl	2(%rsi), %r9d
	cmpb	$64, %r9b
	movl	$64, %r8d
	cmovbl	%r9d, %r8d
	cmpq	$16, %rdx
	jb	.LBB16_19
# %bb.18:                               # %"records::little::little_at.exit58.thread"
	movl	12(%rsi), %r9d
	jmp	.LBB16_26
.LBB16_1:                               # %join.6.i
	cmpq	$5, %rdx
	jae	.LBB16_2
# %bb.15:                               # %"records::little::little_at.exit32"
	cmpq	$2, %rdx
	jbe	.LBB16_16
# %bb.25:                               # %"records::little::little_at.exit58"
	movzbl	2(%rsi), %eax
	cmpb	$64, %al
	movl	$64, %r8d
	cmovbl	%eax, %r8d
	xorl	%ecx, %ecx
	movl	$0, %eax
	movl	$0, %r9d
	movl	$0, %r10d
	cmpq	$4, %rdx
	jae	.LBB16_26
	jmp	.LBB16_27
.LBB16_9:                               # %join.6.i9
	xorl	%ecx, %ecx
	cmpq	$8, %rdx
	je	.LBB16_7
# %bb.10:                               # %join.6.i9
	cmpq	$9, %rdx
	je	.LBB16_14
# %bb.11:                               # %join.6.i9
	cmpq	$11, %rdx
	jne	.LBB16_13
# %bb.12:                               # %"records::byte_at.exit.i.i19.1.thread"
	movzbl	10(%rsi), %ecx
	shll	$8, %ecx
.LBB16_13:                              # %then.1.i.i.i22.2
	movzbl	9(%rsi), %edx
	orl	%edx, %ecx
	shll	$8, %ecx
.LBB16_14:                              # %"records::byte_at.exit.i.i19.3"
	movzbl	8(%rsi), %edx
	orq	%rdx, %rcx
	jmp	.LBB16_7
.LBB16_2:                               # %"records::byte_at.exit.i.i"
	xorl	%ecx, %ecx
	cmpq	$5, %rdx
	je	.LBB16_6
# %bb.3:                                # %"records::byte_at.exit.i.i"
	cmpq	$7, %rdx
	jne	.LBB16_5
# %bb.4:                                # %"records::byte_at.exit.i.i.1.thread"
	movzbl	6(%rsi), %ecx
	shll	$8, %ecx
.LBB16_5:                               # %then.1.i.i.i.2
	movzbl	5(%rsi), %eax
	orl	%eax, %ecx
	shll	$8, %ecx
.LBB16_6:                               # %"records::little::little_at.exit32.thread109"
	movzbl	4(%rsi), %eax
	orq	%rcx, %rax
	xorl	%ecx, %ecx
.LBB16_7:                               # %"records::little::little_at.exit58.thread140"
	movzbl	2(%rsi), %edx
	cmpb	$64, %dl
	movl	$64, %r8d
	cmovbl	%edx, %r8d
	xorl	%r9d, %r9d
.LBB16_26:                              # %then.1.i.i
	movzbl	3(%rsi), %r10d
.LBB16_27:                              # %"summary::byte.exit"
	leaq	(%rcx,%rax), %rdx
	movzbl	%r8b, %esi
	movq	%rsi, (%rdi)
	movq	%rdx, 8(%rdi)
	movq	%rax, 16(%rdi)
	movq	%rcx, 24(%rdi)
	movq	%r9, 32(%rdi)
	movq	%r10, 40(%rdi)
	retq
.LBB16_19:                              # %join.6.i35
	xorl	%r9d, %r9d
	cmpq	$12, %rdx
	je	.LBB16_26
# %bb.20:                               # %join.6.i35
	cmpq	$13, %rdx
	je	.LBB16_24
# %bb.21:                               # %join.6.i35
	cmpq	$15, %rdx
	jne	.LBB16_23
# %bb.22:                               # %"records::byte_at.exit.i.i45.1.thread"
	movzbl	14(%rsi), %r9d
	shll	$8, %r9d
.LBB16_23:                              # %then.1.i.i.i48.2
	movzbl	13(%rsi), %edx
	orl	%edx, %r9d
	shll	$8, %r9d
.LBB16_24:                              # %"records::byte_at.exit.i.i45.3"
	movzbl	12(%rsi), %edx
	orq	%rdx, %r9
	jmp	.LBB16_26
.LBB16_16:
	xorl	%eax, %eax
	xorl	%r9d, %r9d
	xorl	%ecx, %ecx
	xorl	%r8d, %r8d
	xorl	%r10d, %r10d
	jmp	.LBB16_27
.Lfunc_end16:
	.size	"summary::fields", .Lfunc_end16-"summary::fields"
                                        # -- End function
	.section	.rodata.cst16,"aM",@progbits,16
	.p2align	4, 0x0                          # -- Begin function sets::count
.LCPI17_0:
	.quad	1                               # 0x1
	.quad	1                               # 0x1
	.section	".text.sets::count","ax",@progbits
	.p2align	4
	.type	"sets::count",@function
"sets::count":                          # @"sets::count"
# %bb.0:                                # %start
	pushq	%r15
	pushq	%r14
	pushq	%r13
	pushq	%r12
	pushq	%rbx
	subq	$2352, %rsp                     # imm = 0x930
	movq	%rcx, %r14
	movq	%rdx, %r15
	movq	%rsi, %r12
	movq	%rdi, %rbx
	leaq	8(%rsp), %r13
	movl	$512, %edx                      # imm = 0x200
	movq	%r13, %rdi
	xorl	%esi, %esi
	callq	memset@PLT
	movq	%r12, %rdi
	movq	%r15, %rsi
	movq	%r14, %rdx
	movq	%r13, %rcx
	callq	"block::admit"
	testb	%al, %al
	je	.LBB17_12
# %bb.1:                                # %arm.1.i
	movl	$1, %ecx
	testq	%r12, %r12
	je	.LBB17_13
# %bb.2:                                # %join.7.i
	shrq	%r14
	leaq	1(%r14), %rax
	cmpq	%r12, %rax
	jne	.LBB17_14
# %bb.3:                                # %join.10.i
	xorps	%xmm0, %xmm0
	movups	%xmm0, 480(%rsp)
	movups	%xmm0, 496(%rsp)
	movups	%xmm0, 512(%rsp)
	leaq	1568(%rsp), %rdi
	movl	$520, %edx                      # imm = 0x208
	xorl	%esi, %esi
	callq	memset@PLT
	leaq	1048(%rsp), %rdi
	movl	$520, %edx                      # imm = 0x208
	xorl	%esi, %esi
	callq	memset@PLT
	leaq	528(%rsp), %rdi
	movl	$520, %edx                      # imm = 0x208
	xorl	%esi, %esi
	callq	memset@PLT
	leaq	2092(%rsp), %rdi
	movl	$260, %edx                      # imm = 0x104
	xorl	%esi, %esi
	callq	memset@PLT
	movl	$512, 2096(%rsp)                # imm = 0x200
	testq	%r14, %r14
	je	.LBB17_6
# %bb.4:                                # %join.7.i.i.i.preheader
	xorl	%eax, %eax
	.p2align	4
.LBB17_5:                               # %join.7.i.i.i
                                        # =>This Inner Loop Header: Depth=1
	movzbl	(%r15,%rax,2), %ecx
	movzbl	1(%r15,%rax,2), %edx
	movl	2092(%rsp,%rcx,4), %esi
	addl	%edx, %esi
	addl	$256, %esi                      # imm = 0x100
	movl	%esi, 2092(%rsp,%rcx,4)
	movl	2092(%rsp,%rdx,4), %esi
	addl	%esi, %ecx
	addl	$256, %ecx                      # imm = 0x100
	movl	%ecx, 2092(%rsp,%rdx,4)
	incq	%rax
	cmpq	%rax, %r14
	jne	.LBB17_5
.LBB17_6:                               # %"sets::keyed.exit.i.i"
	movaps	.LCPI17_0(%rip), %xmm0          # xmm0 = [1,1]
	movups	%xmm0, 24(%rsp)
	movups	%xmm0, 8(%rsp)
	movups	%xmm0, 56(%rsp)
	movups	%xmm0, 40(%rsp)
	movups	%xmm0, 88(%rsp)
	movups	%xmm0, 72(%rsp)
	movups	%xmm0, 120(%rsp)
	movups	%xmm0, 104(%rsp)
	movups	%xmm0, 152(%rsp)
	movups	%xmm0, 136(%rsp)
	movups	%xmm0, 184(%rsp)
	movups	%xmm0, 168(%rsp)
	movups	%xmm0, 216(%rsp)
	movups	%xmm0, 200(%rsp)
	movups	%xmm0, 248(%rsp)
	movups	%xmm0, 232(%rsp)
	movups	%xmm0, 280(%rsp)
	movups	%xmm0, 264(%rsp)
	movups	%xmm0, 312(%rsp)
	movups	%xmm0, 296(%rsp)
	movups	%xmm0, 344(%rsp)
	movups	%xmm0, 328(%rsp)
	movups	%xmm0, 376(%rsp)
	movups	%xmm0, 360(%rsp)
	movups	%xmm0, 408(%rsp)
	movups	%xmm0, 392(%rsp)
	movups	%xmm0, 440(%rsp)
	movups	%xmm0, 424(%rsp)
	movups	%xmm0, 472(%rsp)
	movups	%xmm0, 456(%rsp)
	movups	%xmm0, 504(%rsp)
	movups	%xmm0, 488(%rsp)
	movq	$1, 520(%rsp)
	movups	%xmm0, 1584(%rsp)
	movups	%xmm0, 1568(%rsp)
	movups	%xmm0, 1616(%rsp)
	movups	%xmm0, 1600(%rsp)
	movups	%xmm0, 1648(%rsp)
	movups	%xmm0, 1632(%rsp)
	movups	%xmm0, 1680(%rsp)
	movups	%xmm0, 1664(%rsp)
	movups	%xmm0, 1712(%rsp)
	movups	%xmm0, 1696(%rsp)
	movups	%xmm0, 1744(%rsp)
	movups	%xmm0, 1728(%rsp)
	movups	%xmm0, 1776(%rsp)
	movups	%xmm0, 1760(%rsp)
	movups	%xmm0, 1808(%rsp)
	movups	%xmm0, 1792(%rsp)
	movups	%xmm0, 1840(%rsp)
	movups	%xmm0, 1824(%rsp)
	movups	%xmm0, 1872(%rsp)
	movups	%xmm0, 1856(%rsp)
	movups	%xmm0, 1904(%rsp)
	movups	%xmm0, 1888(%rsp)
	movups	%xmm0, 1936(%rsp)
	movups	%xmm0, 1920(%rsp)
	movups	%xmm0, 1968(%rsp)
	movups	%xmm0, 1952(%rsp)
	movups	%xmm0, 2000(%rsp)
	movups	%xmm0, 1984(%rsp)
	movups	%xmm0, 2032(%rsp)
	movups	%xmm0, 2016(%rsp)
	movups	%xmm0, 2064(%rsp)
	movups	%xmm0, 2048(%rsp)
	movq	$1, 2080(%rsp)
	movups	%xmm0, 1064(%rsp)
	movups	%xmm0, 1048(%rsp)
	movups	%xmm0, 1096(%rsp)
	movups	%xmm0, 1080(%rsp)
	movups	%xmm0, 1128(%rsp)
	movups	%xmm0, 1112(%rsp)
	movups	%xmm0, 1160(%rsp)
	movups	%xmm0, 1144(%rsp)
	movups	%xmm0, 1192(%rsp)
	movups	%xmm0, 1176(%rsp)
	movups	%xmm0, 1224(%rsp)
	movups	%xmm0, 1208(%rsp)
	movups	%xmm0, 1256(%rsp)
	movups	%xmm0, 1240(%rsp)
	movups	%xmm0, 1288(%rsp)
	movups	%xmm0, 1272(%rsp)
	movups	%xmm0, 1320(%rsp)
	movups	%xmm0, 1304(%rsp)
	movups	%xmm0, 1352(%rsp)
	movups	%xmm0, 1336(%rsp)
	movups	%xmm0, 1384(%rsp)
	movups	%xmm0, 1368(%rsp)
	movups	%xmm0, 1416(%rsp)
	movups	%xmm0, 1400(%rsp)
	movups	%xmm0, 1448(%rsp)
	movups	%xmm0, 1432(%rsp)
	movups	%xmm0, 1480(%rsp)
	movups	%xmm0, 1464(%rsp)
	movups	%xmm0, 1512(%rsp)
	movups	%xmm0, 1496(%rsp)
	movups	%xmm0, 1544(%rsp)
	movups	%xmm0, 1528(%rsp)
	movq	$1, 1560(%rsp)
	movups	%xmm0, 544(%rsp)
	movups	%xmm0, 528(%rsp)
	movups	%xmm0, 576(%rsp)
	movups	%xmm0, 560(%rsp)
	movups	%xmm0, 608(%rsp)
	movups	%xmm0, 592(%rsp)
	movups	%xmm0, 640(%rsp)
	movups	%xmm0, 624(%rsp)
	movups	%xmm0, 672(%rsp)
	movups	%xmm0, 656(%rsp)
	movups	%xmm0, 704(%rsp)
	movups	%xmm0, 688(%rsp)
	movups	%xmm0, 736(%rsp)
	movups	%xmm0, 720(%rsp)
	movups	%xmm0, 768(%rsp)
	movups	%xmm0, 752(%rsp)
	movups	%xmm0, 800(%rsp)
	movups	%xmm0, 784(%rsp)
	movups	%xmm0, 832(%rsp)
	movups	%xmm0, 816(%rsp)
	movups	%xmm0, 864(%rsp)
	movups	%xmm0, 848(%rsp)
	movups	%xmm0, 896(%rsp)
	movups	%xmm0, 880(%rsp)
	movups	%xmm0, 928(%rsp)
	movups	%xmm0, 912(%rsp)
	movups	%xmm0, 960(%rsp)
	movups	%xmm0, 944(%rsp)
	movups	%xmm0, 992(%rsp)
	movups	%xmm0, 976(%rsp)
	movups	%xmm0, 1024(%rsp)
	movups	%xmm0, 1008(%rsp)
	movq	$1, 1040(%rsp)
	testq	%r14, %r14
	je	.LBB17_11
# %bb.7:                                # %join.13.i.i.preheader
	movl	$1, %eax
	movl	$1, %ecx
	jmp	.LBB17_9
	.p2align	4
.LBB17_8:                               # %else.15.i.i
                                        #   in Loop: Header=BB17_9 Depth=1
	incq	%rax
	movq	%rax, %rcx
	testq	%r14, %r14
	je	.LBB17_11
.LBB17_9:                               # %join.13.i.i
                                        # =>This Inner Loop Header: Depth=1
	movl	2092(%rsp,%rcx,4), %edx
	movl	%edx, %esi
	andl	$-256, %esi
	cmpl	$256, %esi                      # imm = 0x100
	jne	.LBB17_8
# %bb.10:                               # %then.14.i.i
                                        #   in Loop: Header=BB17_9 Depth=1
	movzbl	%dl, %edx
	leal	(,%rdx,8), %esi
	movq	1568(%rsp,%rsi), %rdi
	movq	8(%rsp,%rcx,8), %r8
	movq	8(%rsp,%rsi), %r9
	imulq	%r8, %r9
	imulq	%rdi, %r8
	imulq	1568(%rsp,%rcx,8), %rdi
	addq	%r9, %rdi
	movq	%rdi, 8(%rsp,%rsi)
	movq	%r8, 1568(%rsp,%rsi)
	movq	$1, 8(%rsp,%rcx,8)
	movq	$0, 1568(%rsp,%rcx,8)
	movq	1048(%rsp,%rcx,8), %rdi
	movq	528(%rsp,%rcx,8), %r8
	addq	%rdi, %r8
	imulq	1048(%rsp,%rsi), %r8
	imulq	528(%rsp,%rsi), %rdi
	movq	%r8, 1048(%rsp,%rsi)
	movq	%rdi, 528(%rsp,%rsi)
	movq	$1, 1048(%rsp,%rcx,8)
	movq	$0, 528(%rsp,%rcx,8)
	movl	%edx, %esi
	movl	2092(%rsp,%rsi,4), %edi
	subl	%ecx, %edi
	addl	$-256, %edi
	movl	%edi, 2092(%rsp,%rsi,4)
	movl	$0, 2092(%rsp,%rcx,4)
	decq	%r14
	movq	%rdx, %rcx
	testq	%r14, %r14
	jne	.LBB17_9
.LBB17_11:                              # %"sets::recursion.exit.i"
	movq	16(%rsp), %rax
	movq	536(%rsp), %rdx
	addq	1056(%rsp), %rdx
	xorl	%ecx, %ecx
	jmp	.LBB17_16
.LBB17_12:                              # %arm.2.i
	movq	%r12, %rdi
	movq	%r15, %rsi
	movq	%r14, %rdx
	callq	"block::refusal"
	movl	$1, %ecx
	jmp	.LBB17_16
.LBB17_13:
	movl	$18, %eax
	jmp	.LBB17_15
.LBB17_14:
	movl	$34, %eax
.LBB17_15:                              # %"sets::count_from.exit"
	xorl	%edx, %edx
.LBB17_16:                              # %"sets::count_from.exit"
	movq	%rcx, (%rbx)
	movq	%rax, 8(%rbx)
	movq	%rdx, 16(%rbx)
	addq	$2352, %rsp                     # imm = 0x930
	popq	%rbx
	popq	%r12
	popq	%r13
	popq	%r14
	popq	%r15
	retq
.Lfunc_end17:
	.size	"sets::count", .Lfunc_end17-"sets::count"
                                        # -- End function
	.section	".text.szeged::terms","ax",@progbits
	.p2align	4                               # -- Begin function szeged::terms
	.type	"szeged::terms",@function
"szeged::terms":                        # @"szeged::terms"
# %bb.0:                                # %start
	pushq	%rbp
	pushq	%r15
	pushq	%r14
	pushq	%r13
	pushq	%r12
	pushq	%rbx
	subq	$2408, %rsp                     # imm = 0x968
	movq	%r9, 8(%rsp)                    # 8-byte Spill
	movq	%r8, %r12
	movq	%rcx, %r15
	movq	%rdx, %rbp
	movq	%rsi, %r13
	movq	%rdi, %r14
	pxor	%xmm0, %xmm0
	movdqa	%xmm0, 224(%rsp)
	movq	$0, 240(%rsp)
	leaq	392(%rsp), %rbx
	movl	$2016, %edx                     # imm = 0x7E0
	movq	%rbx, %rdi
	xorl	%esi, %esi
	callq	memset@PLT
	leaq	224(%rsp), %rdi
	movq	%r13, %rsi
	movq	%rbp, %rdx
	movq	%r15, %rcx
	movq	%rbx, %r8
	callq	"block::halved"
	cmpb	$0, 224(%rsp)
	je	.LBB18_1
# %bb.59:                               # %arm.2
	movq	$1, (%r14)
	movdqu	232(%rsp), %xmm0
	movdqu	%xmm0, 8(%r14)
	jmp	.LBB18_58
.LBB18_1:                               # %arm.1
	movq	%rbp, (%rsp)                    # 8-byte Spill
	shrq	%r15
	cmpq	%r15, 8(%rsp)                   # 8-byte Folded Reload
	jae	.LBB18_3
# %bb.2:
	movl	$9, %ebx
	movl	$1, %eax
	jmp	.LBB18_57
.LBB18_3:                               # %join.3.i
	testq	%r15, %r15
	je	.LBB18_4
# %bb.5:                                # %join.5.lr.ph.i.i
	movq	%r15, 8(%rsp)                   # 8-byte Spill
	movq	%r14, 208(%rsp)                 # 8-byte Spill
	movq	%r13, %rbp
	andq	$-32, %rbp
	movq	%r13, %r14
	andq	$-8, %r14
	xorl	%ebx, %ebx
	xorl	%r15d, %r15d
	movq	(%rsp), %r11                    # 8-byte Reload
	movq	%r12, 216(%rsp)                 # 8-byte Spill
	jmp	.LBB18_6
	.p2align	4
.LBB18_29:                              #   in Loop: Header=BB18_6 Depth=1
	xorl	%eax, %eax
.LBB18_55:                              # %"szeged::term.exit.i.i"
                                        #   in Loop: Header=BB18_6 Depth=1
	movq	%rax, (%r12,%r15,8)
	addq	%rax, %rbx
	incq	%r15
	cmpq	8(%rsp), %r15                   # 8-byte Folded Reload
	je	.LBB18_56
.LBB18_6:                               # %join.5.i.i
                                        # =>This Loop Header: Depth=1
                                        #     Child Loop BB18_11 Depth 2
                                        #     Child Loop BB18_13 Depth 2
                                        #     Child Loop BB18_22 Depth 2
                                        #     Child Loop BB18_24 Depth 2
                                        #     Child Loop BB18_35 Depth 2
                                        #     Child Loop BB18_39 Depth 2
                                        #     Child Loop BB18_41 Depth 2
                                        #     Child Loop BB18_47 Depth 2
                                        #     Child Loop BB18_51 Depth 2
                                        #     Child Loop BB18_53 Depth 2
	movzbl	(%r11,%r15,2), %eax
	movzbl	1(%r11,%r15,2), %r12d
	leaq	-1(%rax), %rcx
	pxor	%xmm0, %xmm0
	cmpq	$64, %rcx
	jb	.LBB18_8
# %bb.7:                                # %then.1.i.i.i.i
                                        #   in Loop: Header=BB18_6 Depth=1
	movdqa	%xmm0, 192(%rsp)
	movdqa	%xmm0, 176(%rsp)
	movdqa	%xmm0, 160(%rsp)
	jmp	.LBB18_17
	.p2align	4
.LBB18_8:                               # %join.3.i.i.i.i
                                        #   in Loop: Header=BB18_6 Depth=1
	movdqa	%xmm0, 64(%rsp)
	movdqa	%xmm0, 48(%rsp)
	movdqa	%xmm0, 32(%rsp)
	movdqa	%xmm0, 16(%rsp)
	cmpb	$2, %al
	jb	.LBB18_60
# %bb.9:                                # %join.5.i.i.i.i.i.preheader
                                        #   in Loop: Header=BB18_6 Depth=1
	movl	%ecx, %edx
	andl	$3, %edx
	leal	-2(%rax), %r8d
	movl	$1, %esi
	movq	%rax, %rdi
	cmpb	$3, %r8b
	jb	.LBB18_13
# %bb.10:                               # %join.5.i.i.i.i.i.preheader.new
                                        #   in Loop: Header=BB18_6 Depth=1
	movl	%ecx, %r8d
	andl	$60, %r8d
	xorl	%r9d, %r9d
	movq	%rax, %rdi
	.p2align	4
.LBB18_11:                              # %join.5.i.i.i.i.i
                                        #   Parent Loop BB18_6 Depth=1
                                        # =>  This Inner Loop Header: Depth=2
	movzbl	390(%rsp,%rdi), %r10d
	movb	%r10b, 15(%rsp,%rsi)
	subq	%rsi, %rdi
	movq	%rsi, %r10
	notq	%r10
	movzbl	453(%rsp,%rdi), %r11d
	movb	%r11b, 16(%rsp,%rsi)
	leaq	63(%rdi,%r10), %r11
	leaq	126(%rdi,%r10), %rdi
	leaq	2(%rsi), %r10
	movzbl	453(%rsp,%r11), %r11d
	movb	%r11b, 17(%rsp,%rsi)
	subq	%r10, %rdi
	leaq	3(%rsi), %r10
	movzbl	453(%rsp,%rdi), %r11d
	movb	%r11b, 18(%rsp,%rsi)
	negq	%r10
	addq	%r10, %rdi
	addq	$126, %rdi
	addq	$4, %rsi
	addq	$4, %r9
	cmpq	%r8, %r9
	jne	.LBB18_11
# %bb.12:                               # %"half::column.exit.i.i.i.i.unr-lcssa"
                                        #   in Loop: Header=BB18_6 Depth=1
	testq	%rdx, %rdx
	movq	(%rsp), %r11                    # 8-byte Reload
	je	.LBB18_14
	.p2align	4
.LBB18_13:                              # %join.5.i.i.i.i.i.epil
                                        #   Parent Loop BB18_6 Depth=1
                                        # =>  This Inner Loop Header: Depth=2
	movzbl	390(%rsp,%rdi), %r8d
	movb	%r8b, 15(%rsp,%rsi)
	subq	%rsi, %rdi
	addq	$63, %rdi
	incq	%rsi
	decq	%rdx
	jne	.LBB18_13
.LBB18_14:                              # %"half::column.exit.i.i.i.i"
                                        #   in Loop: Header=BB18_6 Depth=1
	movdqa	16(%rsp), %xmm0
	movaps	32(%rsp), %xmm1
	movaps	48(%rsp), %xmm2
	movaps	64(%rsp), %xmm3
	movaps	%xmm3, 304(%rsp)
	movaps	%xmm2, 288(%rsp)
	movaps	%xmm1, 272(%rsp)
	movdqa	%xmm0, 256(%rsp)
	cmpb	$63, %al
	jbe	.LBB18_15
	jmp	.LBB18_16
	.p2align	4
.LBB18_60:                              # %"half::column.exit.thread.i.i.i.i"
                                        #   in Loop: Header=BB18_6 Depth=1
	movdqa	%xmm0, 256(%rsp)
	movdqa	%xmm0, 272(%rsp)
	movdqa	%xmm0, 288(%rsp)
	movdqa	%xmm0, 304(%rsp)
.LBB18_15:                              # %join.5.lr.ph.i.i.i.i.i
                                        #   in Loop: Header=BB18_6 Depth=1
	movl	$128, %edx
	subq	%rax, %rdx
	imulq	%rdx, %rcx
	shrq	%rcx
	leaq	(%rsp,%rcx), %rsi
	addq	$392, %rsi                      # imm = 0x188
	leaq	(%rsp,%rax), %rdi
	addq	$256, %rdi                      # imm = 0x100
	movl	$64, %edx
	subq	%rax, %rdx
	callq	memcpy@PLT
	movq	(%rsp), %r11                    # 8-byte Reload
.LBB18_16:                              # %"half::along.exit.i.i.i.i"
                                        #   in Loop: Header=BB18_6 Depth=1
	movdqa	256(%rsp), %xmm0
	movaps	272(%rsp), %xmm1
	movaps	288(%rsp), %xmm2
	movaps	304(%rsp), %xmm3
	movaps	%xmm3, 192(%rsp)
	movaps	%xmm2, 176(%rsp)
	movaps	%xmm1, 160(%rsp)
.LBB18_17:                              # %"half::row.exit.i.i.i"
                                        #   in Loop: Header=BB18_6 Depth=1
	movdqa	%xmm0, 144(%rsp)
	movdqa	144(%rsp), %xmm0
	movdqa	160(%rsp), %xmm1
	movdqa	176(%rsp), %xmm2
	movdqa	192(%rsp), %xmm3
	movdqa	%xmm3, 368(%rsp)
	movdqa	%xmm2, 352(%rsp)
	movdqa	%xmm1, 336(%rsp)
	movdqa	%xmm0, 320(%rsp)
	leaq	-1(%r12), %rax
	pxor	%xmm0, %xmm0
	cmpq	$64, %rax
	jb	.LBB18_19
# %bb.18:                               # %then.1.i28.i.i.i
                                        #   in Loop: Header=BB18_6 Depth=1
	movdqa	%xmm0, 192(%rsp)
	movdqa	%xmm0, 176(%rsp)
	movdqa	%xmm0, 160(%rsp)
	jmp	.LBB18_28
	.p2align	4
.LBB18_19:                              # %join.3.i7.i.i.i
                                        #   in Loop: Header=BB18_6 Depth=1
	movdqa	%xmm0, 128(%rsp)
	movdqa	%xmm0, 112(%rsp)
	movdqa	%xmm0, 96(%rsp)
	movdqa	%xmm0, 80(%rsp)
	cmpb	$2, %r12b
	jb	.LBB18_61
# %bb.20:                               # %join.5.i.i16.i.i.i.preheader
                                        #   in Loop: Header=BB18_6 Depth=1
	movl	%eax, %ecx
	andl	$3, %ecx
	leal	-2(%r12), %edi
	movl	$1, %edx
	movq	%r12, %rsi
	cmpb	$3, %dil
	jb	.LBB18_24
# %bb.21:                               # %join.5.i.i16.i.i.i.preheader.new
                                        #   in Loop: Header=BB18_6 Depth=1
	movl	%eax, %edi
	andl	$60, %edi
	xorl	%r8d, %r8d
	movq	%r12, %rsi
	.p2align	4
.LBB18_22:                              # %join.5.i.i16.i.i.i
                                        #   Parent Loop BB18_6 Depth=1
                                        # =>  This Inner Loop Header: Depth=2
	movzbl	390(%rsp,%rsi), %r9d
	movb	%r9b, 79(%rsp,%rdx)
	subq	%rdx, %rsi
	movq	%rdx, %r9
	notq	%r9
	movzbl	453(%rsp,%rsi), %r10d
	movb	%r10b, 80(%rsp,%rdx)
	leaq	63(%rsi,%r9), %r10
	leaq	126(%rsi,%r9), %rsi
	leaq	2(%rdx), %r9
	movzbl	453(%rsp,%r10), %r10d
	movb	%r10b, 81(%rsp,%rdx)
	subq	%r9, %rsi
	leaq	3(%rdx), %r9
	movzbl	453(%rsp,%rsi), %r10d
	movb	%r10b, 82(%rsp,%rdx)
	negq	%r9
	addq	%r9, %rsi
	addq	$126, %rsi
	addq	$4, %rdx
	addq	$4, %r8
	cmpq	%rdi, %r8
	jne	.LBB18_22
# %bb.23:                               # %"half::column.exit.i26.i.i.i.unr-lcssa"
                                        #   in Loop: Header=BB18_6 Depth=1
	testq	%rcx, %rcx
	je	.LBB18_25
	.p2align	4
.LBB18_24:                              # %join.5.i.i16.i.i.i.epil
                                        #   Parent Loop BB18_6 Depth=1
                                        # =>  This Inner Loop Header: Depth=2
	movzbl	390(%rsp,%rsi), %edi
	movb	%dil, 79(%rsp,%rdx)
	subq	%rdx, %rsi
	addq	$63, %rsi
	incq	%rdx
	decq	%rcx
	jne	.LBB18_24
.LBB18_25:                              # %"half::column.exit.i26.i.i.i"
                                        #   in Loop: Header=BB18_6 Depth=1
	movdqa	80(%rsp), %xmm0
	movdqa	96(%rsp), %xmm1
	movdqa	112(%rsp), %xmm2
	movdqa	128(%rsp), %xmm3
	movdqa	%xmm3, 64(%rsp)
	movdqa	%xmm2, 48(%rsp)
	movdqa	%xmm1, 32(%rsp)
	movdqa	%xmm0, 16(%rsp)
	cmpb	$63, %r12b
	jbe	.LBB18_26
	jmp	.LBB18_27
	.p2align	4
.LBB18_61:                              # %"half::column.exit.thread.i9.i.i.i"
                                        #   in Loop: Header=BB18_6 Depth=1
	movdqa	%xmm0, 16(%rsp)
	movdqa	%xmm0, 32(%rsp)
	movdqa	%xmm0, 48(%rsp)
	movdqa	%xmm0, 64(%rsp)
.LBB18_26:                              # %join.5.lr.ph.i.i10.i.i.i
                                        #   in Loop: Header=BB18_6 Depth=1
	movl	$128, %ecx
	subq	%r12, %rcx
	imulq	%rcx, %rax
	shrq	%rax
	leaq	(%rsp,%rax), %rsi
	addq	$392, %rsi                      # imm = 0x188
	leaq	(%rsp,%r12), %rdi
	addq	$16, %rdi
	movl	$64, %edx
	subq	%r12, %rdx
	callq	memcpy@PLT
	movq	(%rsp), %r11                    # 8-byte Reload
.LBB18_27:                              # %"half::along.exit.i15.i.i.i"
                                        #   in Loop: Header=BB18_6 Depth=1
	movdqa	16(%rsp), %xmm0
	movdqa	32(%rsp), %xmm1
	movdqa	48(%rsp), %xmm2
	movdqa	64(%rsp), %xmm3
	movdqa	%xmm3, 192(%rsp)
	movdqa	%xmm2, 176(%rsp)
	movdqa	%xmm1, 160(%rsp)
.LBB18_28:                              # %"half::row.exit29.i.i.i"
                                        #   in Loop: Header=BB18_6 Depth=1
	movdqa	%xmm0, 144(%rsp)
	movdqa	144(%rsp), %xmm0
	movdqa	160(%rsp), %xmm1
	movdqa	176(%rsp), %xmm2
	movdqa	192(%rsp), %xmm3
	movdqa	%xmm3, 128(%rsp)
	movdqa	%xmm2, 112(%rsp)
	movdqa	%xmm1, 96(%rsp)
	movdqa	%xmm0, 80(%rsp)
	testq	%r13, %r13
	movq	216(%rsp), %r12                 # 8-byte Reload
	je	.LBB18_29
# %bb.30:                               # %iter.check27
                                        #   in Loop: Header=BB18_6 Depth=1
	cmpq	$8, %r13
	jae	.LBB18_32
# %bb.31:                               #   in Loop: Header=BB18_6 Depth=1
	xorl	%eax, %eax
	xorl	%edx, %edx
	jmp	.LBB18_41
	.p2align	4
.LBB18_32:                              # %vector.main.loop.iter.check29
                                        #   in Loop: Header=BB18_6 Depth=1
	cmpq	$32, %r13
	jae	.LBB18_34
# %bb.33:                               #   in Loop: Header=BB18_6 Depth=1
	xorl	%ecx, %ecx
	xorl	%eax, %eax
	jmp	.LBB18_38
.LBB18_34:                              # %vector.body33.preheader
                                        #   in Loop: Header=BB18_6 Depth=1
	pxor	%xmm0, %xmm0
	xorl	%eax, %eax
	pxor	%xmm1, %xmm1
	.p2align	4
.LBB18_35:                              # %vector.body33
                                        #   Parent Loop BB18_6 Depth=1
                                        # =>  This Inner Loop Header: Depth=2
	movdqu	320(%rsp,%rax), %xmm2
	movdqu	336(%rsp,%rax), %xmm3
	movdqu	80(%rsp,%rax), %xmm4
	movdqu	96(%rsp,%rax), %xmm5
	pmaxub	%xmm2, %xmm4
	pcmpeqb	%xmm2, %xmm4
	paddb	%xmm4, %xmm1
	pmaxub	%xmm3, %xmm5
	pcmpeqb	%xmm3, %xmm5
	paddb	%xmm5, %xmm0
	pcmpeqd	%xmm2, %xmm2
	psubb	%xmm2, %xmm1
	psubb	%xmm2, %xmm0
	addq	$32, %rax
	cmpq	%rax, %rbp
	jne	.LBB18_35
# %bb.36:                               # %middle.block42
                                        #   in Loop: Header=BB18_6 Depth=1
	paddb	%xmm1, %xmm0
	pshufd	$238, %xmm0, %xmm1              # xmm1 = xmm0[2,3,2,3]
	paddb	%xmm0, %xmm1
	pxor	%xmm0, %xmm0
	psadbw	%xmm1, %xmm0
	movd	%xmm0, %eax
	cmpq	%rbp, %r13
	je	.LBB18_42
# %bb.37:                               # %vec.epilog.iter.check48
                                        #   in Loop: Header=BB18_6 Depth=1
	movq	%rbp, %rcx
	movq	%rbp, %rdx
	testb	$24, %r13b
	je	.LBB18_41
.LBB18_38:                              # %vec.epilog.ph50
                                        #   in Loop: Header=BB18_6 Depth=1
	movzbl	%al, %eax
	movd	%eax, %xmm0
	.p2align	4
.LBB18_39:                              # %vec.epilog.vector.body53
                                        #   Parent Loop BB18_6 Depth=1
                                        # =>  This Inner Loop Header: Depth=2
	movq	320(%rsp,%rcx), %xmm1           # xmm1 = mem[0],zero
	movq	80(%rsp,%rcx), %xmm2            # xmm2 = mem[0],zero
	pmaxub	%xmm1, %xmm2
	pcmpeqb	%xmm1, %xmm2
	paddb	%xmm2, %xmm0
	pcmpeqd	%xmm1, %xmm1
	psubb	%xmm1, %xmm0
	addq	$8, %rcx
	cmpq	%rcx, %r14
	jne	.LBB18_39
# %bb.40:                               # %vec.epilog.middle.block59
                                        #   in Loop: Header=BB18_6 Depth=1
	pxor	%xmm1, %xmm1
	psadbw	%xmm1, %xmm0
	movd	%xmm0, %eax
	movq	%r14, %rdx
	cmpq	%r14, %r13
	je	.LBB18_42
	.p2align	4
.LBB18_41:                              # %join.5.i.i.i.i
                                        #   Parent Loop BB18_6 Depth=1
                                        # =>  This Inner Loop Header: Depth=2
	movzbl	320(%rsp,%rdx), %ecx
	cmpb	80(%rsp,%rdx), %cl
	adcb	$0, %al
	incq	%rdx
	cmpq	%rdx, %r13
	jne	.LBB18_41
.LBB18_42:                              # %iter.check
                                        #   in Loop: Header=BB18_6 Depth=1
	cmpq	$8, %r13
	jae	.LBB18_44
# %bb.43:                               #   in Loop: Header=BB18_6 Depth=1
	xorl	%ecx, %ecx
	xorl	%esi, %esi
	jmp	.LBB18_53
	.p2align	4
.LBB18_44:                              # %vector.main.loop.iter.check
                                        #   in Loop: Header=BB18_6 Depth=1
	cmpq	$32, %r13
	jae	.LBB18_46
# %bb.45:                               #   in Loop: Header=BB18_6 Depth=1
	xorl	%edx, %edx
	xorl	%ecx, %ecx
	jmp	.LBB18_50
.LBB18_46:                              # %vector.body.preheader
                                        #   in Loop: Header=BB18_6 Depth=1
	pxor	%xmm0, %xmm0
	xorl	%ecx, %ecx
	pxor	%xmm1, %xmm1
	.p2align	4
.LBB18_47:                              # %vector.body
                                        #   Parent Loop BB18_6 Depth=1
                                        # =>  This Inner Loop Header: Depth=2
	movdqu	80(%rsp,%rcx), %xmm2
	movdqu	96(%rsp,%rcx), %xmm3
	movdqu	320(%rsp,%rcx), %xmm4
	movdqu	336(%rsp,%rcx), %xmm5
	pmaxub	%xmm2, %xmm4
	pcmpeqb	%xmm2, %xmm4
	paddb	%xmm4, %xmm1
	pmaxub	%xmm3, %xmm5
	pcmpeqb	%xmm3, %xmm5
	paddb	%xmm5, %xmm0
	pcmpeqd	%xmm2, %xmm2
	psubb	%xmm2, %xmm1
	psubb	%xmm2, %xmm0
	addq	$32, %rcx
	cmpq	%rcx, %rbp
	jne	.LBB18_47
# %bb.48:                               # %middle.block
                                        #   in Loop: Header=BB18_6 Depth=1
	paddb	%xmm1, %xmm0
	pshufd	$238, %xmm0, %xmm1              # xmm1 = xmm0[2,3,2,3]
	paddb	%xmm0, %xmm1
	pxor	%xmm0, %xmm0
	psadbw	%xmm1, %xmm0
	movd	%xmm0, %ecx
	cmpq	%rbp, %r13
	je	.LBB18_54
# %bb.49:                               # %vec.epilog.iter.check
                                        #   in Loop: Header=BB18_6 Depth=1
	movq	%rbp, %rdx
	movq	%rbp, %rsi
	testb	$24, %r13b
	je	.LBB18_53
.LBB18_50:                              # %vec.epilog.ph
                                        #   in Loop: Header=BB18_6 Depth=1
	movzbl	%cl, %ecx
	movd	%ecx, %xmm0
	.p2align	4
.LBB18_51:                              # %vec.epilog.vector.body
                                        #   Parent Loop BB18_6 Depth=1
                                        # =>  This Inner Loop Header: Depth=2
	movq	80(%rsp,%rdx), %xmm1            # xmm1 = mem[0],zero
	movq	320(%rsp,%rdx), %xmm2           # xmm2 = mem[0],zero
	pmaxub	%xmm1, %xmm2
	pcmpeqb	%xmm1, %xmm2
	paddb	%xmm2, %xmm0
	pcmpeqd	%xmm1, %xmm1
	psubb	%xmm1, %xmm0
	addq	$8, %rdx
	cmpq	%rdx, %r14
	jne	.LBB18_51
# %bb.52:                               # %vec.epilog.middle.block
                                        #   in Loop: Header=BB18_6 Depth=1
	pxor	%xmm1, %xmm1
	psadbw	%xmm1, %xmm0
	movd	%xmm0, %ecx
	movq	%r14, %rsi
	cmpq	%r14, %r13
	je	.LBB18_54
	.p2align	4
.LBB18_53:                              # %join.5.i31.i.i.i
                                        #   Parent Loop BB18_6 Depth=1
                                        # =>  This Inner Loop Header: Depth=2
	movzbl	80(%rsp,%rsi), %edx
	cmpb	320(%rsp,%rsi), %dl
	adcb	$0, %cl
	incq	%rsi
	cmpq	%rsi, %r13
	jne	.LBB18_53
.LBB18_54:                              # %after.1.loopexit.i43.i.i.i
                                        #   in Loop: Header=BB18_6 Depth=1
	movzbl	%al, %edx
	movzbl	%cl, %eax
	imulq	%rdx, %rax
	jmp	.LBB18_55
.LBB18_56:
	xorl	%eax, %eax
	movq	208(%rsp), %r14                 # 8-byte Reload
	jmp	.LBB18_57
.LBB18_4:
	xorl	%eax, %eax
	xorl	%ebx, %ebx
.LBB18_57:                              # %"szeged::answered.exit"
	movq	%rax, (%r14)
	movq	%rbx, 8(%r14)
	movq	$0, 16(%r14)
.LBB18_58:                              # %common.ret
	addq	$2408, %rsp                     # imm = 0x968
	popq	%rbx
	popq	%r12
	popq	%r13
	popq	%r14
	popq	%r15
	popq	%rbp
	retq
.Lfunc_end18:
	.size	"szeged::terms", .Lfunc_end18-"szeged::terms"
                                        # -- End function
	.section	".text.block::halved","ax",@progbits
	.p2align	4                               # -- Begin function block::halved
	.type	"block::halved",@function
"block::halved":                        # @"block::halved"
# %bb.0:                                # %start
	pushq	%rbp
	pushq	%r15
	pushq	%r14
	pushq	%r13
	pushq	%r12
	pushq	%rbx
	subq	$600, %rsp                      # imm = 0x258
	movq	%r8, %r14
	movq	%rcx, %r12
	movq	%rdx, %r13
	movq	%rsi, %r15
	movq	%rdi, %rbx
	leaq	88(%rsp), %rbp
	movl	$512, %edx                      # imm = 0x200
	movq	%rbp, %rdi
	xorl	%esi, %esi
	callq	memset@PLT
	movq	%r15, %rdi
	movq	%r13, %rsi
	movq	%r12, %rdx
	movq	%rbp, %rcx
	callq	"block::admit"
	testb	%al, %al
	je	.LBB19_1
# %bb.2:                                # %join.5
	movq	%rbx, (%rsp)                    # 8-byte Spill
	movl	$2016, %edx                     # imm = 0x7E0
	movq	%r14, 8(%rsp)                   # 8-byte Spill
	movq	%r14, %rdi
	xorl	%esi, %esi
	callq	memset@PLT
	testq	%r15, %r15
	je	.LBB19_11
# %bb.3:                                # %join.5.lr.ph.i
	xorl	%r13d, %r13d
	movl	$64, %ebp
	movl	$64, %ecx
	subq	%r15, %rcx
	cmovbq	%r13, %rcx
	movq	$-1, %rbx
                                        # kill: def $cl killed $cl killed $rcx
	shrq	%cl, %rbx
	cmpq	$64, %r15
	cmovbq	%r15, %rbp
	xorl	%r12d, %r12d
	jmp	.LBB19_4
	.p2align	4
.LBB19_10:                              # %"half::put_row.exit.i"
                                        #   in Loop: Header=BB19_4 Depth=1
	addq	%r14, %r14
	subq	%r14, %r13
	addq	$126, %r13
	cmpq	%r15, %r12
	je	.LBB19_11
.LBB19_4:                               # %join.5.i
                                        # =>This Loop Header: Depth=1
                                        #     Child Loop BB19_5 Depth 2
	movq	%r12, %r14
	xorps	%xmm0, %xmm0
	movaps	%xmm0, 64(%rsp)
	movaps	%xmm0, 48(%rsp)
	movaps	%xmm0, 32(%rsp)
	movaps	%xmm0, 16(%rsp)
	movl	$1, %esi
	movl	%r14d, %ecx
	shlq	%cl, %rsi
	movq	%rbx, %rax
	btcq	%r12, %rax
	xorl	%edx, %edx
	xorl	%ecx, %ecx
	jmp	.LBB19_5
	.p2align	4
.LBB19_7:                               # %join.8.i.i
                                        #   in Loop: Header=BB19_5 Depth=2
	movq	%rdi, %rsi
	testq	%rdi, %rdi
	je	.LBB19_8
.LBB19_5:                               # %join.5.i.i
                                        #   Parent Loop BB19_4 Depth=1
                                        # =>  This Inner Loop Header: Depth=2
	rep		bsfq	%rsi, %r8
	leaq	-1(%rsi), %rdi
	orq	88(%rsp,%r8,8), %rdx
	movb	%cl, 16(%rsp,%r8)
	andq	%rsi, %rdi
	jne	.LBB19_7
# %bb.6:                                # %then.6.i.i
                                        #   in Loop: Header=BB19_5 Depth=2
	movq	%rdx, %rdi
	andq	%rax, %rdi
	xorq	%rdi, %rax
	incb	%cl
	xorl	%edx, %edx
	jmp	.LBB19_7
	.p2align	4
.LBB19_8:                               # %"block::search::from_atom.exit.i"
                                        #   in Loop: Header=BB19_4 Depth=1
	leaq	1(%r14), %r12
	cmpq	$64, %r14
	setb	%al
	cmpq	%rbp, %r12
	setb	%cl
	andb	%al, %cl
	cmpb	$1, %cl
	jne	.LBB19_10
# %bb.9:                                # %join.11.preheader.i.i
                                        #   in Loop: Header=BB19_4 Depth=1
	movq	%r14, %rdx
	notq	%rdx
	addq	%rbp, %rdx
	leaq	(%rsp,%r12), %rsi
	addq	$16, %rsi
	movq	%r13, %rdi
	shrq	%rdi
	addq	8(%rsp), %rdi                   # 8-byte Folded Reload
	callq	memcpy@PLT
	jmp	.LBB19_10
.LBB19_1:                               # %then.3
	movq	%r15, %rdi
	movq	%r13, %rsi
	movq	%r12, %rdx
	callq	"block::refusal"
	movb	$1, (%rbx)
	movq	%rax, 8(%rbx)
	movq	%rdx, 16(%rbx)
	jmp	.LBB19_12
.LBB19_11:                              # %"block::search::from_all.exit"
	movq	(%rsp), %rax                    # 8-byte Reload
	movb	$0, (%rax)
	xorps	%xmm0, %xmm0
	movups	%xmm0, 8(%rax)
.LBB19_12:                              # %"block::search::from_all.exit"
	addq	$600, %rsp                      # imm = 0x258
	popq	%rbx
	popq	%r12
	popq	%r13
	popq	%r14
	popq	%r15
	popq	%rbp
	retq
.Lfunc_end19:
	.size	"block::halved", .Lfunc_end19-"block::halved"
                                        # -- End function
	.section	".text.claiming::judged","ax",@progbits
	.p2align	4                               # -- Begin function claiming::judged
	.type	"claiming::judged",@function
"claiming::judged":                     # @"claiming::judged"
# %bb.0:                                # %start
	pushq	%rbp
	pushq	%r15
	pushq	%r14
	pushq	%r13
	pushq	%r12
	pushq	%rbx
	subq	$32, %rsp
	testq	%rdx, %rdx
	je	.LBB20_85
# %bb.1:                                # %join.3
	movq	%r8, %r12
	movq	%r9, -64(%rsp)                  # 8-byte Spill
	xorl	%r11d, %r11d
	xorl	%r13d, %r13d
	xorl	%r14d, %r14d
	xorl	%r15d, %r15d
.LBB20_2:                               # %"records::byte_at.exit.i.i"
                                        # =>This Loop Header: Depth=1
                                        #     Child Loop BB20_15 Depth 2
                                        #     Child Loop BB20_19 Depth 2
                                        #     Child Loop BB20_25 Depth 2
                                        #     Child Loop BB20_44 Depth 2
                                        #     Child Loop BB20_50 Depth 2
                                        #     Child Loop BB20_10 Depth 2
                                        #     Child Loop BB20_31 Depth 2
                                        #     Child Loop BB20_38 Depth 2
                                        #     Child Loop BB20_55 Depth 2
                                        #     Child Loop BB20_60 Depth 2
                                        #     Child Loop BB20_64 Depth 2
	incq	%r14
	movzbl	(%rsi,%r15), %ebx
	leaq	-1(%rbx), %rax
	movl	$35, %r9d
	cmpq	%r12, %rax
	jae	.LBB20_92
# %bb.3:                                # %join.3.i.i
                                        #   in Loop: Header=BB20_2 Depth=1
	leaq	1(%r15), %r10
	movl	$2, %eax
	cmpq	%rdx, %r10
	jae	.LBB20_5
# %bb.4:                                # %then.1.i.i.i.i
                                        #   in Loop: Header=BB20_2 Depth=1
	movzbl	(%rsi,%r10), %eax
	addq	$2, %rax
.LBB20_5:                               # %"claiming::size_at.exit.i.i"
                                        #   in Loop: Header=BB20_2 Depth=1
	movq	%rdx, %r8
	subq	%r15, %r8
	cmpq	%rax, %r8
	jb	.LBB20_92
# %bb.6:                                # %join.6.i.i
                                        #   in Loop: Header=BB20_2 Depth=1
	movq	%r10, -56(%rsp)                 # 8-byte Spill
	addq	$2, %r15
	addq	$-2, %rax
	movq	%rdx, %r8
	subq	%r15, %r8
	movq	%r15, %r10
	cmovbq	%rdx, %r10
	cmpq	%rax, %r8
	cmovaeq	%rax, %r8
	xorl	%ebp, %ebp
	cmpq	%r15, %rdx
	cmovaeq	%r8, %rbp
	addq	%rsi, %r10
	cmpl	$10, %ebx
	jne	.LBB20_13
# %bb.7:                                # %then.1.i.i10.i.i
                                        #   in Loop: Header=BB20_2 Depth=1
	testq	%rbp, %rbp
	je	.LBB20_28
# %bb.8:                                # %join.5.us.i.i.i.i.i.i.i.preheader
                                        #   in Loop: Header=BB20_2 Depth=1
	xorl	%ebx, %ebx
	jmp	.LBB20_10
	.p2align	4
.LBB20_9:                               # %join.8.us.i.i.i.i.i.i.i
                                        #   in Loop: Header=BB20_10 Depth=2
	incq	%rbx
	cmpq	%rbx, %rbp
	je	.LBB20_87
.LBB20_10:                              # %join.5.us.i.i.i.i.i.i.i
                                        #   Parent Loop BB20_2 Depth=1
                                        # =>  This Inner Loop Header: Depth=2
	movzbl	(%r10,%rbx), %eax
	cmpl	$32, %eax
	je	.LBB20_9
# %bb.11:                               # %join.5.us.i.i.i.i.i.i.i
                                        #   in Loop: Header=BB20_10 Depth=2
	cmpl	$9, %eax
	je	.LBB20_9
# %bb.12:                               # %"printed::past.exit.i.i.i.i.i.i.loopexit"
                                        #   in Loop: Header=BB20_2 Depth=1
	movq	%r14, -128(%rsp)                # 8-byte Spill
	jmp	.LBB20_29
	.p2align	4
.LBB20_13:                              # %join.3.i.i.i.i
                                        #   in Loop: Header=BB20_2 Depth=1
	movq	%r14, -128(%rsp)                # 8-byte Spill
	xorl	%r14d, %r14d
	testq	%rbp, %rbp
	jne	.LBB20_15
	jmp	.LBB20_17
	.p2align	4
.LBB20_14:                              # %join.8.us.i.i.i7.i.i.i.i
                                        #   in Loop: Header=BB20_15 Depth=2
	incq	%r14
	cmpq	%r14, %rbp
	je	.LBB20_86
.LBB20_15:                              # %join.5.us.i.i.i3.i.i.i.i
                                        #   Parent Loop BB20_2 Depth=1
                                        # =>  This Inner Loop Header: Depth=2
	movzbl	(%r10,%r14), %eax
	cmpl	$32, %eax
	je	.LBB20_14
# %bb.16:                               # %join.5.us.i.i.i3.i.i.i.i
                                        #   in Loop: Header=BB20_15 Depth=2
	cmpl	$9, %eax
	je	.LBB20_14
.LBB20_17:                              # %"printed::past.exit.i.i11.i.i.i.i"
                                        #   in Loop: Header=BB20_2 Depth=1
	movq	%r14, %r8
	cmpq	%rbp, %r14
	movq	%rcx, -112(%rsp)                # 8-byte Spill
	movq	%r12, -120(%rsp)                # 8-byte Spill
	jae	.LBB20_22
# %bb.18:                               # %join.5.us15.i.i.i63.i.i.i.i.preheader
                                        #   in Loop: Header=BB20_2 Depth=1
	movq	%r14, %r8
	.p2align	4
.LBB20_19:                              # %join.5.us15.i.i.i63.i.i.i.i
                                        #   Parent Loop BB20_2 Depth=1
                                        # =>  This Inner Loop Header: Depth=2
	movzbl	(%r10,%r8), %eax
	addb	$-48, %al
	cmpb	$9, %al
	ja	.LBB20_22
# %bb.20:                               # %join.8.us19.i.i.i68.i.i.i.i
                                        #   in Loop: Header=BB20_19 Depth=2
	incq	%r8
	cmpq	%r8, %rbp
	jne	.LBB20_19
# %bb.21:                               #   in Loop: Header=BB20_2 Depth=1
	movq	%rbp, %r8
	jmp	.LBB20_27
.LBB20_22:                              # %"printed::past.exit17.i.i14.i.i.i.i"
                                        #   in Loop: Header=BB20_2 Depth=1
	movq	%r8, %rax
	cmpq	%rbp, %r8
	jae	.LBB20_24
# %bb.23:                               # %"records::byte_at.exit.i.i.i57.i.i.i.i"
                                        #   in Loop: Header=BB20_2 Depth=1
	xorl	%eax, %eax
	cmpb	$46, (%r10,%r8)
	sete	%al
	addq	%r8, %rax
.LBB20_24:                              # %"printed::behind_point.exit.i.i17.i.i.i.i"
                                        #   in Loop: Header=BB20_2 Depth=1
	cmpq	%rbp, %rax
	jae	.LBB20_42
	.p2align	4
.LBB20_25:                              # %join.5.us26.i.i.i.i.i.i.i
                                        #   Parent Loop BB20_2 Depth=1
                                        # =>  This Inner Loop Header: Depth=2
	cmpb	$48, (%r10,%rax)
	jne	.LBB20_42
# %bb.26:                               # %join.8.us30.i.i.i.i.i.i.i
                                        #   in Loop: Header=BB20_25 Depth=2
	incq	%rax
	cmpq	%rax, %rbp
	jne	.LBB20_25
.LBB20_27:                              #   in Loop: Header=BB20_2 Depth=1
	movq	%rbp, %rax
	jmp	.LBB20_46
.LBB20_28:                              #   in Loop: Header=BB20_2 Depth=1
	movq	%r14, -128(%rsp)                # 8-byte Spill
	xorl	%ebx, %ebx
.LBB20_29:                              # %"printed::past.exit.i.i.i.i.i.i"
                                        #   in Loop: Header=BB20_2 Depth=1
	movq	%rbx, %r14
	cmpq	%rbp, %rbx
	movq	%rcx, -112(%rsp)                # 8-byte Spill
	movq	%r12, -120(%rsp)                # 8-byte Spill
	jae	.LBB20_34
# %bb.30:                               # %join.5.us15.i.i.i.i.i.i.i.preheader
                                        #   in Loop: Header=BB20_2 Depth=1
	movq	%rbx, %r14
	.p2align	4
.LBB20_31:                              # %join.5.us15.i.i.i.i.i.i.i
                                        #   Parent Loop BB20_2 Depth=1
                                        # =>  This Inner Loop Header: Depth=2
	movzbl	(%r10,%r14), %eax
	addb	$-48, %al
	cmpb	$9, %al
	ja	.LBB20_34
# %bb.32:                               # %join.8.us19.i.i.i.i.i.i.i
                                        #   in Loop: Header=BB20_31 Depth=2
	incq	%r14
	cmpq	%r14, %rbp
	jne	.LBB20_31
# %bb.33:                               #   in Loop: Header=BB20_2 Depth=1
	movq	%rbp, %rax
	movq	%rbp, %r14
	movq	%rbp, %r8
	jmp	.LBB20_41
.LBB20_34:                              # %"printed::past.exit17.i.i.i.i.i.i"
                                        #   in Loop: Header=BB20_2 Depth=1
	movq	%r14, %r8
	cmpq	%rbp, %r14
	jae	.LBB20_36
# %bb.35:                               # %"records::byte_at.exit.i.i.i.i.i.i.i"
                                        #   in Loop: Header=BB20_2 Depth=1
	xorl	%r8d, %r8d
	cmpb	$46, (%r10,%r14)
	sete	%r8b
	addq	%r14, %r8
.LBB20_36:                              # %"printed::behind_point.exit.i.i.i.i.i.i"
                                        #   in Loop: Header=BB20_2 Depth=1
	movq	%r8, %rax
	cmpq	%rbp, %r8
	jae	.LBB20_53
# %bb.37:                               # %join.5.us15.i21.i.i.i.i.i.i.preheader
                                        #   in Loop: Header=BB20_2 Depth=1
	movq	%r8, %rax
	.p2align	4
.LBB20_38:                              # %join.5.us15.i21.i.i.i.i.i.i
                                        #   Parent Loop BB20_2 Depth=1
                                        # =>  This Inner Loop Header: Depth=2
	movzbl	(%r10,%rax), %r9d
	addb	$-48, %r9b
	cmpb	$9, %r9b
	ja	.LBB20_53
# %bb.39:                               # %join.8.us19.i26.i.i.i.i.i.i
                                        #   in Loop: Header=BB20_38 Depth=2
	incq	%rax
	cmpq	%rax, %rbp
	jne	.LBB20_38
# %bb.40:                               #   in Loop: Header=BB20_2 Depth=1
	movq	%rbp, %rax
.LBB20_41:                              #   in Loop: Header=BB20_2 Depth=1
	movq	%rbp, %rcx
	jmp	.LBB20_57
.LBB20_42:                              # %"printed::past.exit36.i.i19.i.i.i.i"
                                        #   in Loop: Header=BB20_2 Depth=1
	cmpq	%rbp, %rax
	jb	.LBB20_44
	jmp	.LBB20_46
	.p2align	4
.LBB20_43:                              # %join.8.us.i44.i.i54.i.i.i.i
                                        #   in Loop: Header=BB20_44 Depth=2
	incq	%rax
	cmpq	%rax, %rbp
	je	.LBB20_27
.LBB20_44:                              # %join.5.us.i40.i.i50.i.i.i.i
                                        #   Parent Loop BB20_2 Depth=1
                                        # =>  This Inner Loop Header: Depth=2
	movzbl	(%r10,%rax), %ecx
	cmpl	$32, %ecx
	je	.LBB20_43
# %bb.45:                               # %join.5.us.i40.i.i50.i.i.i.i
                                        #   in Loop: Header=BB20_44 Depth=2
	cmpl	$9, %ecx
	je	.LBB20_43
	.p2align	4
.LBB20_46:                              # %"printed::laid_out.exit.i22.i.i.i.i"
                                        #   in Loop: Header=BB20_2 Depth=1
	xorl	%r12d, %r12d
	movl	$37, %r9d
	cmpq	%r8, %r14
	jae	.LBB20_98
# %bb.47:                               # %"printed::laid_out.exit.i22.i.i.i.i"
                                        #   in Loop: Header=BB20_2 Depth=1
	cmpq	%rbp, %rax
	jne	.LBB20_98
# %bb.48:                               # %join.3.i28.i.i.i.i
                                        #   in Loop: Header=BB20_2 Depth=1
	movq	%r11, -88(%rsp)                 # 8-byte Spill
	movq	%rsi, -80(%rsp)                 # 8-byte Spill
	cmpq	%rbp, %r8
	cmovaeq	%rbp, %r8
	cmpq	%rbp, %r14
	jae	.LBB20_66
# %bb.49:                               # %join.8.i.i32.i.i.i.i.preheader
                                        #   in Loop: Header=BB20_2 Depth=1
	movq	%r13, -96(%rsp)                 # 8-byte Spill
	movq	%rdi, %rbp
	movq	%rdx, %r13
	xorl	%r11d, %r11d
	movabsq	$-3689348814741910323, %rcx     # imm = 0xCCCCCCCCCCCCCCCD
	.p2align	4
.LBB20_50:                              # %join.8.i.i32.i.i.i.i
                                        #   Parent Loop BB20_2 Depth=1
                                        # =>  This Inner Loop Header: Depth=2
	movzbl	(%r10,%r14), %edi
	xorl	%r12d, %r12d
	subq	$48, %rdi
	cmovbq	%r12, %rdi
	movq	%rdi, %rax
	notq	%rax
	mulq	%rcx
	shrq	$3, %rdx
	cmpq	%r11, %rdx
	jb	.LBB20_88
# %bb.51:                               # %arm.10.i.i44.i.i.i.i
                                        #   in Loop: Header=BB20_50 Depth=2
	leaq	(%r11,%r11,4), %rax
	leaq	(%rdi,%rax,2), %r11
	incq	%r14
	cmpq	%r14, %r8
	jne	.LBB20_50
# %bb.52:                               #   in Loop: Header=BB20_2 Depth=1
	xorl	%r10d, %r10d
	movq	%r13, %rdx
	movq	%rbp, %rdi
	movq	-96(%rsp), %r13                 # 8-byte Reload
	jmp	.LBB20_67
.LBB20_53:                              # %"printed::past.exit36.i.i.i.i.i.i"
                                        #   in Loop: Header=BB20_2 Depth=1
	movq	%rax, %rcx
	cmpq	%rbp, %rax
	jb	.LBB20_55
	jmp	.LBB20_57
	.p2align	4
.LBB20_54:                              # %join.8.us.i44.i.i.i.i.i.i
                                        #   in Loop: Header=BB20_55 Depth=2
	incq	%rcx
	cmpq	%rcx, %rbp
	je	.LBB20_41
.LBB20_55:                              # %join.5.us.i40.i.i.i.i.i.i
                                        #   Parent Loop BB20_2 Depth=1
                                        # =>  This Inner Loop Header: Depth=2
	movzbl	(%r10,%rcx), %r9d
	cmpl	$32, %r9d
	je	.LBB20_54
# %bb.56:                               # %join.5.us.i40.i.i.i.i.i.i
                                        #   in Loop: Header=BB20_55 Depth=2
	cmpl	$9, %r9d
	je	.LBB20_54
	.p2align	4
.LBB20_57:                              # %"printed::laid_out.exit.i.i.i.i.i"
                                        #   in Loop: Header=BB20_2 Depth=1
	xorl	%r12d, %r12d
	movl	$37, %r9d
	cmpq	%r14, %rbx
	jae	.LBB20_98
# %bb.58:                               # %"printed::laid_out.exit.i.i.i.i.i"
                                        #   in Loop: Header=BB20_2 Depth=1
	cmpq	%rbp, %rcx
	jne	.LBB20_98
# %bb.59:                               # %join.3.i.i.i.i.i
                                        #   in Loop: Header=BB20_2 Depth=1
	movq	%r11, -88(%rsp)                 # 8-byte Spill
	movq	%rsi, -80(%rsp)                 # 8-byte Spill
	movq	%r13, -96(%rsp)                 # 8-byte Spill
	movq	%rdi, -104(%rsp)                # 8-byte Spill
	movq	%rdx, -72(%rsp)                 # 8-byte Spill
	movq	%rax, %rcx
	subq	%r8, %rcx
	leaq	9(%r8), %r13
	cmpq	$9, %rcx
	cmovbq	%rax, %r13
	cmpq	%rbp, %r14
	cmovaeq	%rbp, %r14
	xorl	%r11d, %r11d
	movabsq	$-3689348814741910323, %rcx     # imm = 0xCCCCCCCCCCCCCCCD
	cmpq	%rbp, %rbx
	jae	.LBB20_62
	.p2align	4
.LBB20_60:                              # %join.8.i.i.i.i.i.i
                                        #   Parent Loop BB20_2 Depth=1
                                        # =>  This Inner Loop Header: Depth=2
	movzbl	(%r10,%rbx), %edi
	xorl	%r12d, %r12d
	subq	$48, %rdi
	cmovbq	%r12, %rdi
	movq	%rdi, %rax
	notq	%rax
	mulq	%rcx
	shrq	$3, %rdx
	cmpq	%r11, %rdx
	jb	.LBB20_89
# %bb.61:                               # %arm.10.i.i.i.i.i.i
                                        #   in Loop: Header=BB20_60 Depth=2
	leaq	(%r11,%r11,4), %rax
	leaq	(%rdi,%rax,2), %r11
	incq	%rbx
	cmpq	%rbx, %r14
	jne	.LBB20_60
.LBB20_62:                              # %arm.4.i.i.i.i.i
                                        #   in Loop: Header=BB20_2 Depth=1
	cmpq	%rbp, %r13
	cmovbq	%r13, %rbp
	cmpq	%rbp, %r8
	jae	.LBB20_70
# %bb.63:                               # %join.8.i17.i.i.i.i.i.preheader
                                        #   in Loop: Header=BB20_2 Depth=1
	movq	%r8, %rbx
	movq	-128(%rsp), %r14                # 8-byte Reload
	.p2align	4
.LBB20_64:                              # %join.8.i17.i.i.i.i.i
                                        #   Parent Loop BB20_2 Depth=1
                                        # =>  This Inner Loop Header: Depth=2
	movzbl	(%r10,%rbx), %edi
	xorl	%r12d, %r12d
	subq	$48, %rdi
	cmovbq	%r12, %rdi
	movq	%rdi, %rax
	notq	%rax
	mulq	%rcx
	shrq	$3, %rdx
	cmpq	%r11, %rdx
	jb	.LBB20_90
# %bb.65:                               # %arm.10.i29.i.i.i.i.i
                                        #   in Loop: Header=BB20_64 Depth=2
	leaq	(%r11,%r11,4), %rax
	leaq	(%rdi,%rax,2), %r11
	incq	%rbx
	cmpq	%rbx, %rbp
	jne	.LBB20_64
	jmp	.LBB20_71
.LBB20_66:                              #   in Loop: Header=BB20_2 Depth=1
	xorl	%r11d, %r11d
	xorl	%r10d, %r10d
.LBB20_67:                              # %arm.6.i
                                        #   in Loop: Header=BB20_2 Depth=1
	movq	-120(%rsp), %r12                # 8-byte Reload
	movq	-112(%rsp), %rcx                # 8-byte Reload
	movq	-128(%rsp), %r14                # 8-byte Reload
	leaq	-1(%rbx), %rax
	cmpq	%r12, %rax
	jae	.LBB20_74
.LBB20_68:                              # %join.3.i.i.i
                                        #   in Loop: Header=BB20_2 Depth=1
	movq	-8(%rcx,%rbx,8), %rax
	cmpl	$10, %ebx
	je	.LBB20_75
.LBB20_69:                              # %join.3.i15.i
                                        #   in Loop: Header=BB20_2 Depth=1
	testq	%r13, %r13
	sete	%r9b
	movq	%r14, %rsi
	cmpq	%rax, %r11
	je	.LBB20_78
	jmp	.LBB20_79
.LBB20_70:                              #   in Loop: Header=BB20_2 Depth=1
	movq	-128(%rsp), %r14                # 8-byte Reload
.LBB20_71:                              # %"printed::digits.exit34.i.i.i.i.i"
                                        #   in Loop: Header=BB20_2 Depth=1
	subq	%r8, %r13
	movq	$1000000000, -48(%rsp)          # imm = 0x3B9ACA00
	movq	$100000000, -40(%rsp)           # imm = 0x5F5E100
	movq	$10000000, -32(%rsp)            # imm = 0x989680
	movq	$1000000, -24(%rsp)             # imm = 0xF4240
	movq	$100000, -16(%rsp)              # imm = 0x186A0
	movq	$10000, -8(%rsp)                # imm = 0x2710
	movq	$1000, (%rsp)                   # imm = 0x3E8
	movq	$100, 8(%rsp)
	movq	$10, 16(%rsp)
	movq	$1, 24(%rsp)
	movq	-48(%rsp,%r13,8), %r10
	testq	%r10, %r10
	je	.LBB20_101
# %bb.72:                               # %"claiming::number.exit.i.i.i"
                                        #   in Loop: Header=BB20_2 Depth=1
	movq	%r10, %rax
	mulq	%r11
	movq	-104(%rsp), %rdi                # 8-byte Reload
	movq	-96(%rsp), %r13                 # 8-byte Reload
	movq	-120(%rsp), %r12                # 8-byte Reload
	movq	-112(%rsp), %rcx                # 8-byte Reload
	jo	.LBB20_92
# %bb.73:                               # %"claiming::number.exit.i.i.arm.6_crit_edge.i"
                                        #   in Loop: Header=BB20_2 Depth=1
	imulq	%r10, %r11
	movl	$10, %ebx
	movq	-72(%rsp), %rdx                 # 8-byte Reload
	leaq	-1(%rbx), %rax
	cmpq	%r12, %rax
	jb	.LBB20_68
.LBB20_74:                              #   in Loop: Header=BB20_2 Depth=1
	xorl	%eax, %eax
	cmpl	$10, %ebx
	jne	.LBB20_69
.LBB20_75:                              # %then.1.i16.i
                                        #   in Loop: Header=BB20_2 Depth=1
	xorl	%esi, %esi
	movq	%rax, %r9
	subq	%r11, %r9
	cmovaeq	%r9, %rsi
	cmpq	%rsi, %r10
	jae	.LBB20_77
# %bb.76:                               # %"claiming::is_right.exit.thread.i"
                                        #   in Loop: Header=BB20_2 Depth=1
	testq	%r13, %r13
	sete	%r9b
	movq	%r14, %rsi
	jmp	.LBB20_79
.LBB20_77:                              # %"claiming::is_right.exit.i"
                                        #   in Loop: Header=BB20_2 Depth=1
	xorl	%esi, %esi
	subq	%rax, %r11
	cmovbq	%rsi, %r11
	subq	%r10, %r11
	cmovbq	%rsi, %r11
	testq	%r13, %r13
	sete	%r9b
	movq	%r14, %rsi
	cmpq	-64(%rsp), %r11                 # 8-byte Folded Reload
	ja	.LBB20_79
.LBB20_78:                              #   in Loop: Header=BB20_2 Depth=1
	xorl	%esi, %esi
.LBB20_79:                              #   in Loop: Header=BB20_2 Depth=1
	testb	%r9b, %r9b
	cmovneq	%rsi, %r13
	andl	$-2, %ebx
	cmpl	$8, %ebx
	sete	%al
	movq	-56(%rsp), %r8                  # 8-byte Reload
	cmpq	%rdx, %r8
	movq	-80(%rsp), %rsi                 # 8-byte Reload
	movq	-88(%rsp), %r11                 # 8-byte Reload
	jae	.LBB20_81
# %bb.80:                               # %then.1.i.i22.i
                                        #   in Loop: Header=BB20_2 Depth=1
	movzbl	(%rsi,%r8), %r8d
	addq	%r8, %r15
.LBB20_81:                              # %"claiming::size_at.exit.i"
                                        #   in Loop: Header=BB20_2 Depth=1
	orb	%al, %r11b
	cmpq	%rdx, %r15
	jb	.LBB20_2
# %bb.82:                               # %arm.5
	testb	$1, %r11b
	je	.LBB20_84
# %bb.83:                               # %join.3.i
	cmpb	$0, 88(%rsp)
	je	.LBB20_100
.LBB20_84:                              # %join.6.i
	cmpq	$1, %r13
	movl	$2, %r12d
	sbbq	$0, %r12
	xorl	%r14d, %r14d
	movq	%r13, %r9
	jmp	.LBB20_93
.LBB20_85:                              # %then.1
	movq	$0, (%rdi)
	movq	$36, 8(%rdi)
	movq	$0, 16(%rdi)
	jmp	.LBB20_94
.LBB20_86:
	movl	$37, %r9d
	xorl	%r12d, %r12d
	movq	-128(%rsp), %r14                # 8-byte Reload
	jmp	.LBB20_93
.LBB20_87:
	movl	$37, %r9d
.LBB20_92:
	xorl	%r12d, %r12d
	jmp	.LBB20_93
.LBB20_88:
	movq	%rbp, %rdi
	movq	-128(%rsp), %r14                # 8-byte Reload
	jmp	.LBB20_93
.LBB20_89:
	movq	-104(%rsp), %rdi                # 8-byte Reload
	movq	-128(%rsp), %r14                # 8-byte Reload
	jmp	.LBB20_93
.LBB20_90:
	movq	-104(%rsp), %rdi                # 8-byte Reload
	jmp	.LBB20_93
.LBB20_98:
	movq	-128(%rsp), %r14                # 8-byte Reload
.LBB20_93:                              # %join.7
	movq	%r12, (%rdi)
	movq	%r9, 8(%rdi)
	movq	%r14, 16(%rdi)
.LBB20_94:                              # %common.ret
	addq	$32, %rsp
	popq	%rbx
	popq	%r12
	popq	%r13
	popq	%r14
	popq	%r15
	popq	%rbp
	retq
.LBB20_100:
	movl	$34, %r9d
	xorl	%r12d, %r12d
	xorl	%r14d, %r14d
	jmp	.LBB20_93
.LBB20_101:                             # %trap.1.i.i.i.i.i.i
	ud2
.Lfunc_end20:
	.size	"claiming::judged", .Lfunc_end20-"claiming::judged"
                                        # -- End function
	.section	".text.library::values","ax",@progbits
	.p2align	4                               # -- Begin function library::values
	.type	"library::values",@function
"library::values":                      # @"library::values"
# %bb.0:                                # %start
	pushq	%rbp
	pushq	%r15
	pushq	%r14
	pushq	%r13
	pushq	%r12
	pushq	%rbx
	subq	$3072, %rsp                     # imm = 0xC00
	movq	$0, (%rsp)
	subq	$3072, %rsp                     # imm = 0xC00
	movq	$0, (%rsp)
	subq	$1976, %rsp                     # imm = 0x7B8
	movq	%r9, %r14
	movq	%r8, %r12
	movq	%rcx, %r15
	movq	%rdx, %rbp
	movq	%rsi, %r13
	movq	%rdi, %rbx
	xorps	%xmm0, %xmm0
	movaps	%xmm0, 592(%rsp)
	movaps	%xmm0, 576(%rsp)
	movaps	%xmm0, 560(%rsp)
	movaps	%xmm0, 544(%rsp)
	movaps	%xmm0, 528(%rsp)
	movaps	%xmm0, 512(%rsp)
	movaps	%xmm0, 496(%rsp)
	movaps	%xmm0, 480(%rsp)
	movaps	%xmm0, 464(%rsp)
	movaps	%xmm0, 448(%rsp)
	movaps	%xmm0, 432(%rsp)
	movaps	%xmm0, 416(%rsp)
	movaps	%xmm0, 400(%rsp)
	movaps	%xmm0, 384(%rsp)
	movaps	%xmm0, 368(%rsp)
	movq	$0, 608(%rsp)
	leaq	368(%rsp), %rdi
	leaq	31(%rsp), %rcx
	movl	$1, %r8d
	callq	"catalogue::read_library"
	cmpb	$0, 368(%rsp)
	je	.LBB21_1
# %bb.3:                                # %arm.2
	movq	$1, (%rbx)
	movups	376(%rsp), %xmm0
	movups	%xmm0, 8(%rbx)
	jmp	.LBB21_4
.LBB21_1:                               # %arm.1
	leaq	-7(%r15), %rax
	cmpq	$-6, %rax
	jae	.LBB21_5
# %bb.2:                                # %then.5
	movq	$1, (%rbx)
	movq	$35, 8(%rbx)
	movq	$0, 16(%rbx)
	jmp	.LBB21_4
.LBB21_5:                               # %join.7
	movq	%r15, 80(%rsp)                  # 8-byte Spill
	movq	%rbx, 56(%rsp)                  # 8-byte Spill
	movq	608(%rsp), %rax
	cmpq	%r14, %rax
	movq	%rax, 40(%rsp)                  # 8-byte Spill
	cmovbq	%rax, %r14
	movq	%r14, 48(%rsp)                  # 8-byte Spill
	movq	392(%rsp), %rbx
	movq	528(%rsp), %r15
	movq	536(%rsp), %rax
	movq	%rax, 64(%rsp)                  # 8-byte Spill
	leaq	4536(%rsp), %rdi
	xorl	%r14d, %r14d
	movl	$3584, %edx                     # imm = 0xE00
	xorl	%esi, %esi
	callq	memset@PLT
	cmpq	%r15, %rbp
	jae	.LBB21_7
# %bb.6:
	movq	%rbp, %r15
	jmp	.LBB21_12
.LBB21_7:                               # %join.3.i.i
	leaq	4(%r15), %rax
	cmpq	%rbp, %r15
	jae	.LBB21_8
# %bb.9:                                # %"records::byte_at.exit.i.i.i"
	movzbl	(%r13,%r15), %ecx
	incq	%r15
	cmpq	%rbp, %r15
	jae	.LBB21_11
# %bb.10:                               # %then.1.i6.i.i.i
	movzbl	(%r13,%r15), %edx
	shll	$8, %edx
	movzwl	%cx, %ecx
	orl	%edx, %ecx
	jmp	.LBB21_11
.LBB21_8:
	xorl	%ecx, %ecx
.LBB21_11:                              # %"records::le16_at.exit.i.i"
	movq	%rbp, %rdx
	subq	%rax, %rdx
	movq	%rax, %r15
	cmovbq	%rbp, %r15
	movzwl	%cx, %ecx
	cmpq	%rcx, %rdx
	cmovaeq	%rcx, %rdx
	xorl	%r14d, %r14d
	cmpq	%rax, %rbp
	cmovaeq	%rdx, %r14
.LBB21_12:                              # %"records::payload_at.exit.i"
	addq	%r13, %r15
	leaq	544(%rsp), %rax
	movq	%rax, 8(%rsp)
	movq	%r14, (%rsp)
	leaq	616(%rsp), %rdi
	movq	%r13, %rsi
	movq	%rbp, %rdx
	leaq	400(%rsp), %rcx
	movq	%rbx, %r8
	movq	%r15, %r9
	callq	"stock::core_at"
	leaq	544(%rsp), %rax
	movq	%rax, 8(%rsp)
	movq	%r14, (%rsp)
	leaq	4536(%rsp), %r14
	movq	%r14, %rdi
	movq	%r13, %rsi
	movq	%rbp, %rdx
	leaq	400(%rsp), %rcx
	movq	%rbx, %r8
	movq	%r15, %r9
	callq	"stock::all_arms"
	leaq	952(%rsp), %rdi
	movl	$3584, %edx                     # imm = 0xE00
	movq	%r14, %rsi
	callq	memcpy@PLT
	xorps	%xmm0, %xmm0
	movaps	%xmm0, 304(%rsp)
	movaps	%xmm0, 288(%rsp)
	movaps	%xmm0, 272(%rsp)
	movaps	%xmm0, 256(%rsp)
	movaps	%xmm0, 240(%rsp)
	movaps	%xmm0, 224(%rsp)
	movaps	%xmm0, 208(%rsp)
	movaps	%xmm0, 192(%rsp)
	cmpq	$0, 40(%rsp)                    # 8-byte Folded Reload
	je	.LBB21_19
# %bb.13:                               # %join.5.lr.ph.i.i
	movq	$0, 32(%rsp)                    # 8-byte Folded Spill
	movq	%r12, 72(%rsp)                  # 8-byte Spill
	jmp	.LBB21_14
	.p2align	4
.LBB21_18:                              # %"library::last::turn_values.exit.i.i"
                                        #   in Loop: Header=BB21_14 Depth=1
	movq	32(%rsp), %rcx                  # 8-byte Reload
	addq	40(%rsp), %rcx                  # 8-byte Folded Reload
	movq	%rcx, 32(%rsp)                  # 8-byte Spill
	cmpq	48(%rsp), %rcx                  # 8-byte Folded Reload
	jae	.LBB21_19
.LBB21_14:                              # %join.5.i.i
                                        # =>This Loop Header: Depth=1
                                        #     Child Loop BB21_16 Depth 2
	leaq	192(%rsp), %rdi
	leaq	616(%rsp), %rsi
	leaq	952(%rsp), %rdx
	leaq	544(%rsp), %rcx
	movq	64(%rsp), %r8                   # 8-byte Reload
	movq	32(%rsp), %r9                   # 8-byte Reload
	callq	"library::last::staying_at"
	movq	312(%rsp), %rax
	movq	%rax, 40(%rsp)                  # 8-byte Spill
	testq	%rax, %rax
	je	.LBB21_18
# %bb.15:                               # %join.5.lr.ph.i.i.i
                                        #   in Loop: Header=BB21_14 Depth=1
	movq	296(%rsp), %rcx
	movq	288(%rsp), %rdx
	movq	280(%rsp), %rsi
	movq	272(%rsp), %rdi
	movq	264(%rsp), %r8
	movq	248(%rsp), %r9
	movq	256(%rsp), %r10
	movq	192(%rsp), %rbx
	movabsq	$1152921504606846975, %r11      # imm = 0xFFFFFFFFFFFFFFF
	andq	%r11, %rbx
	movq	%rbx, 120(%rsp)                 # 8-byte Spill
	movq	208(%rsp), %rax
	andq	%r11, %rax
	movq	%rax, 112(%rsp)                 # 8-byte Spill
	movq	216(%rsp), %rax
	andq	%r11, %rax
	movq	%rax, 104(%rsp)                 # 8-byte Spill
	movq	224(%rsp), %rax
	andq	%r11, %rax
	movq	232(%rsp), %rbx
	andq	%r11, %rbx
	movq	%rbx, 96(%rsp)                  # 8-byte Spill
	andl	$536870911, %r9d                # imm = 0x1FFFFFFF
	andl	$536870911, %r10d               # imm = 0x1FFFFFFF
	movq	%r10, 128(%rsp)                 # 8-byte Spill
	andl	$536870911, %r8d                # imm = 0x1FFFFFFF
	andl	$536870911, %edi                # imm = 0x1FFFFFFF
	movq	%rdi, 152(%rsp)                 # 8-byte Spill
	andl	$536870911, %esi                # imm = 0x1FFFFFFF
	movq	%rsi, 160(%rsp)                 # 8-byte Spill
	andl	$536870911, %edx                # imm = 0x1FFFFFFF
	addq	%rax, %rdx
	movq	%rdx, 168(%rsp)                 # 8-byte Spill
	andl	$536870911, %ecx                # imm = 0x1FFFFFFF
	movq	%r8, 144(%rsp)                  # 8-byte Spill
	addq	%r8, %r9
	movq	%r9, 136(%rsp)                  # 8-byte Spill
	incq	%rcx
	movq	%rcx, 176(%rsp)                 # 8-byte Spill
	imulq	$112, 304(%rsp), %rbp
	leaq	1056(%rsp), %rax
	addq	%rax, %rbp
	movq	32(%rsp), %rax                  # 8-byte Reload
	leaq	(%r12,%rax,8), %rcx
	movq	%rcx, 88(%rsp)                  # 8-byte Spill
	movq	48(%rsp), %rcx                  # 8-byte Reload
	subq	%rax, %rcx
	movq	%rcx, 184(%rsp)                 # 8-byte Spill
	xorl	%esi, %esi
	.p2align	4
.LBB21_16:                              # %join.5.i.i.i
                                        #   Parent Loop BB21_14 Depth=1
                                        # =>  This Inner Loop Header: Depth=2
	cmpq	%rsi, 184(%rsp)                 # 8-byte Folded Reload
	je	.LBB21_19
# %bb.17:                               # %join.8.i.i.i
                                        #   in Loop: Header=BB21_16 Depth=2
	movq	-40(%rbp), %r15
	movq	-32(%rbp), %rdi
	movq	-24(%rbp), %rdx
	movq	-16(%rbp), %r11
	movq	-8(%rbp), %rax
	movq	-88(%rbp), %rcx
	movabsq	$1152921504606846975, %r10      # imm = 0xFFFFFFFFFFFFFFF
	andq	%r10, %rcx
	addq	112(%rsp), %rcx                 # 8-byte Folded Reload
	movq	-72(%rbp), %r12
	andq	%r10, %r12
	addq	168(%rsp), %r12                 # 8-byte Folded Reload
	andl	$536870911, %r15d               # imm = 0x1FFFFFFF
	andl	$536870911, %edi                # imm = 0x1FFFFFFF
	andl	$536870911, %edx                # imm = 0x1FFFFFFF
	andl	$536870911, %r11d               # imm = 0x1FFFFFFF
	imulq	160(%rsp), %r11                 # 8-byte Folded Reload
	andl	$536870911, %eax                # imm = 0x1FFFFFFF
	addq	%r12, %rax
	addq	%r11, %rax
	movq	%rdx, %r12
	movq	136(%rsp), %rbx                 # 8-byte Reload
	imulq	%rbx, %r12
	movq	%rdx, %r11
	addq	%r15, %rdx
	movq	144(%rsp), %r9                  # 8-byte Reload
	imulq	%r9, %r15
	addq	%rcx, %r15
	movq	%rdi, %r13
	movq	128(%rsp), %r14                 # 8-byte Reload
	imulq	%r14, %r13
	addq	%r12, %r13
	movq	-48(%rbp), %r12
	andl	$536870911, %r12d               # imm = 0x1FFFFFFF
	addq	%r15, %r13
	leaq	(%rdi,%r12), %rcx
	movq	152(%rsp), %r8                  # 8-byte Reload
	imulq	%r8, %rcx
	addq	%r13, %rcx
	movq	-80(%rbp), %r15
	andq	%r10, %r15
	addq	104(%rsp), %r15                 # 8-byte Folded Reload
	imulq	%r9, %r12
	addq	%r15, %r12
	imulq	%rbx, %rdi
	imulq	%r14, %r11
	addq	%rdi, %r11
	movq	(%rbp), %rdi
	addq	%r12, %r11
	movq	72(%rsp), %r12                  # 8-byte Reload
	movq	-104(%rbp), %r15
	andq	%r10, %r15
	addq	120(%rsp), %r15                 # 8-byte Folded Reload
	imulq	%r8, %rdx
	addq	%r11, %rdx
	movq	-64(%rbp), %r11
	andq	%r10, %r11
	andl	$536870911, %edi                # imm = 0x1FFFFFFF
	movq	96(%rsp), %r8                   # 8-byte Reload
	cmpq	%r11, %r8
	cmovaq	%r8, %r11
	addq	176(%rsp), %rdi                 # 8-byte Folded Reload
	cmpq	%rdi, %r11
	cmovaq	%r11, %rdi
	movq	%r15, 320(%rsp)
	leaq	(%rdx,%rcx), %r11
	movq	%r11, 328(%rsp)
	movq	%rcx, 336(%rsp)
	movq	%rdx, 344(%rsp)
	movq	%rax, 352(%rsp)
	movq	%rdi, 360(%rsp)
	movq	80(%rsp), %rax                  # 8-byte Reload
	movq	312(%rsp,%rax,8), %rax
	movq	88(%rsp), %rcx                  # 8-byte Reload
	movq	%rax, (%rcx,%rsi,8)
	incq	%rsi
	addq	$112, %rbp
	cmpq	%rsi, 40(%rsp)                  # 8-byte Folded Reload
	jne	.LBB21_16
	jmp	.LBB21_18
.LBB21_19:                              # %"library::values_read.exit"
	movq	56(%rsp), %rax                  # 8-byte Reload
	movq	$0, (%rax)
	movq	48(%rsp), %rcx                  # 8-byte Reload
	movq	%rcx, 8(%rax)
	movq	$0, 16(%rax)
.LBB21_4:                               # %common.ret
	addq	$8120, %rsp                     # imm = 0x1FB8
	popq	%rbx
	popq	%r12
	popq	%r13
	popq	%r14
	popq	%r15
	popq	%rbp
	retq
.Lfunc_end21:
	.size	"library::values", .Lfunc_end21-"library::values"
                                        # -- End function
	.section	.rodata.cst16,"aM",@progbits,16
	.p2align	4, 0x0                          # -- Begin function catalogue::read_library
.LCPI22_0:
	.quad	1                               # 0x1
	.quad	1                               # 0x1
	.section	".text.catalogue::read_library","ax",@progbits
	.p2align	4
	.type	"catalogue::read_library",@function
"catalogue::read_library":              # @"catalogue::read_library"
# %bb.0:                                # %start
	pushq	%rbp
	pushq	%r15
	pushq	%r14
	pushq	%r13
	pushq	%r12
	pushq	%rbx
	subq	$840, %rsp                      # imm = 0x348
	movq	%r8, %r9
	movq	%rcx, %r8
	movq	%rdx, %r12
	movq	%rsi, %r13
	movq	%rdi, %rbx
	pxor	%xmm0, %xmm0
	movdqa	%xmm0, 736(%rsp)
	movdqa	%xmm0, 720(%rsp)
	movdqa	%xmm0, 704(%rsp)
	movdqa	%xmm0, 688(%rsp)
	movdqa	%xmm0, 672(%rsp)
	movdqa	%xmm0, 656(%rsp)
	movdqa	%xmm0, 640(%rsp)
	movdqa	%xmm0, 624(%rsp)
	movdqa	%xmm0, 608(%rsp)
	movdqa	%xmm0, 592(%rsp)
	movdqa	%xmm0, 576(%rsp)
	movq	$0, 752(%rsp)
	movw	$0, 168(%rsp)
	movabsq	$8590196741, %rax               # imm = 0x200040005
	movq	%rax, 160(%rsp)
	movb	$1, 168(%rsp)
	leaq	576(%rsp), %rdi
	leaq	160(%rsp), %rcx
	callq	"compose::blocks::open_deck"
	movzbl	576(%rsp), %eax
	testb	%al, %al
	je	.LBB22_2
# %bb.1:                                # %arm.2
	movb	%al, (%rbx)
	movl	$0, 1(%rbx)
	movl	$0, 4(%rbx)
	movups	584(%rsp), %xmm0
	movups	%xmm0, 8(%rbx)
	xorps	%xmm0, %xmm0
	movups	%xmm0, 24(%rbx)
	movups	%xmm0, 40(%rbx)
	movups	%xmm0, 56(%rbx)
	movups	%xmm0, 72(%rbx)
	movups	%xmm0, 88(%rbx)
	movups	%xmm0, 104(%rbx)
	movups	%xmm0, 120(%rbx)
	movups	%xmm0, 136(%rbx)
	movups	%xmm0, 152(%rbx)
	movups	%xmm0, 168(%rbx)
	movups	%xmm0, 184(%rbx)
	movups	%xmm0, 200(%rbx)
	movups	%xmm0, 216(%rbx)
	movups	%xmm0, 232(%rbx)
	jmp	.LBB22_11
.LBB22_2:                               # %join.4
	movq	736(%rsp), %r15
	cmpq	%r15, %r12
	jb	.LBB22_8
# %bb.3:                                # %join.3.i.i
	leaq	4(%r15), %rdi
	cmpq	%r12, %r15
	jae	.LBB22_6
# %bb.4:                                # %"records::byte_at.exit.i.i.i"
	movzbl	(%r13,%r15), %eax
	leaq	1(%r15), %rcx
	cmpq	%r12, %rcx
	jae	.LBB22_7
# %bb.5:                                # %then.1.i6.i.i.i
	movzbl	(%r13,%rcx), %ecx
	shll	$8, %ecx
	movzwl	%ax, %eax
	orl	%ecx, %eax
	jmp	.LBB22_7
.LBB22_6:
	xorl	%eax, %eax
.LBB22_7:                               # %"records::le16_at.exit.i.i"
	movzwl	%ax, %eax
	movq	%r12, %r14
	subq	%rdi, %r14
	cmpq	%rax, %r14
	cmovaeq	%rax, %r14
	cmpq	%rdi, %r12
	jae	.LBB22_12
.LBB22_8:                               # %"records::payload_at.exit.thread.i"
	movl	$31, %ecx
.LBB22_9:                               # %arm.2.i
	movl	$0, 11(%rsp)
	movl	$0, 8(%rsp)
	pxor	%xmm0, %xmm0
	movdqa	%xmm0, 368(%rsp)
	movdqa	%xmm0, 384(%rsp)
	movdqa	%xmm0, 400(%rsp)
	movdqa	%xmm0, 416(%rsp)
	movdqa	%xmm0, 432(%rsp)
	movdqa	%xmm0, 448(%rsp)
	movdqa	%xmm0, 464(%rsp)
	movdqa	%xmm0, 480(%rsp)
	movdqa	%xmm0, 304(%rsp)
	movdqa	%xmm0, 320(%rsp)
	movdqa	%xmm0, 336(%rsp)
	movdqa	%xmm0, 352(%rsp)
	movb	$1, %dl
	xorl	%edi, %edi
	movq	%r15, %r9
	xorl	%r15d, %r15d
	xorl	%r8d, %r8d
	xorl	%eax, %eax
.LBB22_10:                              # %"catalogue::read_record.exit"
	movb	%dl, (%rbx)
	movl	8(%rsp), %edx
	movl	11(%rsp), %esi
	movl	%edx, 1(%rbx)
	movl	%esi, 4(%rbx)
	movq	%rcx, 8(%rbx)
	movq	%r9, 16(%rbx)
	movq	%rdi, 24(%rbx)
	movaps	368(%rsp), %xmm0
	movaps	384(%rsp), %xmm1
	movaps	400(%rsp), %xmm2
	movaps	416(%rsp), %xmm3
	movups	%xmm0, 32(%rbx)
	movups	%xmm1, 48(%rbx)
	movups	%xmm2, 64(%rbx)
	movups	%xmm3, 80(%rbx)
	movaps	432(%rsp), %xmm0
	movups	%xmm0, 96(%rbx)
	movaps	448(%rsp), %xmm0
	movups	%xmm0, 112(%rbx)
	movaps	464(%rsp), %xmm0
	movups	%xmm0, 128(%rbx)
	movaps	480(%rsp), %xmm0
	movups	%xmm0, 144(%rbx)
	movq	%r15, 160(%rbx)
	movq	%r8, 168(%rbx)
	movaps	304(%rsp), %xmm0
	movaps	320(%rsp), %xmm1
	movaps	336(%rsp), %xmm2
	movaps	352(%rsp), %xmm3
	movups	%xmm0, 176(%rbx)
	movups	%xmm1, 192(%rbx)
	movups	%xmm2, 208(%rbx)
	movups	%xmm3, 224(%rbx)
	movq	%rax, 240(%rbx)
.LBB22_11:                              # %arm.2
	addq	$840, %rsp                      # imm = 0x348
	popq	%rbx
	popq	%r12
	popq	%r13
	popq	%r14
	popq	%r15
	popq	%rbp
	retq
.LBB22_12:                              # %"records::payload_at.exit.i"
	addq	%r13, %rdi
	movl	$31, %ecx
	cmpq	$3, %r14
	jb	.LBB22_9
# %bb.13:                               # %"records::byte_at.exit.i.i4.i"
	movq	600(%rsp), %rdx
	movq	752(%rsp), %rax
	movq	%rax, 224(%rsp)                 # 8-byte Spill
	movzbl	2(%rdi), %esi
	jne	.LBB22_15
# %bb.14:                               # %"records::le16_at.exit.thread49.i.i"
	movq	%rsi, 40(%rsp)                  # 8-byte Spill
	leal	-5(%rsi), %eax
	cmpb	$-4, %al
	jb	.LBB22_9
	jmp	.LBB22_16
.LBB22_15:                              # %"records::le16_at.exit.i7.i"
	movzbl	3(%rdi), %eax
	shll	$8, %eax
	orq	%rax, %rsi
	movq	%rsi, 40(%rsp)                  # 8-byte Spill
	leal	-5(%rsi), %eax
	cmpl	$-4, %eax
	jb	.LBB22_9
.LBB22_16:                              # %"records::byte_at.exit.i9.i.i"
	leaq	608(%rsp), %rsi
	movq	%rdi, 32(%rsp)                  # 8-byte Spill
	movzwl	(%rdi), %ebp
	leaq	232(%rsp), %rdi
	movq	%rdx, 24(%rsp)                  # 8-byte Spill
	movq	%rbp, %rcx
	callq	"assembly::find_block"
	movl	$16, %ecx
	testq	%rbp, %rbp
	je	.LBB22_9
# %bb.17:                               # %"records::byte_at.exit.i9.i.i"
	movzwl	232(%rsp), %eax
	cmpl	%eax, %ebp
	movq	24(%rsp), %r10                  # 8-byte Reload
	movq	32(%rsp), %r11                  # 8-byte Reload
	jne	.LBB22_9
# %bb.18:                               # %join.7.lr.ph.i.i.i
	movq	232(%rsp), %rcx
	movl	%ecx, %edi
	shrl	$16, %edi
	leaq	6(%rdi), %rdx
	movq	%rcx, %rsi
	shrq	$47, %rsi
	andl	$-2, %esi
	movq	%r12, %r8
	subq	%rdx, %r8
	movq	%rdx, %rax
	cmovbq	%r12, %rax
	cmpq	%rsi, %r8
	cmovaeq	%rsi, %r8
	xorl	%r9d, %r9d
	cmpq	%rdx, %r12
	cmovbq	%r9, %r8
	shrq	$32, %rcx
	movzwl	%cx, %ecx
	movq	%rcx, 560(%rsp)                 # 8-byte Spill
	leaq	(%rax,%r13), %rcx
	movq	%rcx, 72(%rsp)                  # 8-byte Spill
	pxor	%xmm0, %xmm0
	movdqa	%xmm0, 144(%rsp)
	movdqa	%xmm0, 128(%rsp)
	movdqa	%xmm0, 112(%rsp)
	movdqa	%xmm0, 96(%rsp)
	leaq	-2(%r8), %rcx
	movq	%rcx, 552(%rsp)                 # 8-byte Spill
	shrq	%rcx
	incq	%rcx
	movq	%rcx, 536(%rsp)                 # 8-byte Spill
	andq	$-4, %rcx
	movq	%rcx, 528(%rsp)                 # 8-byte Spill
	addq	%rcx, %rcx
	movq	%rcx, 520(%rsp)                 # 8-byte Spill
	movl	%r8d, %ecx
	andl	$224, %ecx
	movq	%rcx, 504(%rsp)                 # 8-byte Spill
	movl	%r8d, %ecx
	andl	$252, %ecx
	movq	%rcx, 512(%rsp)                 # 8-byte Spill
	leaq	224(%rsp), %rcx
	movq	%rcx, 216(%rsp)                 # 8-byte Spill
	leaq	(%rax,%r13), %rcx
	addq	$7, %rcx
	movq	%rcx, 184(%rsp)                 # 8-byte Spill
	addq	%r13, %rax
	incq	%rax
	movq	%rax, 544(%rsp)                 # 8-byte Spill
	movl	$4, %esi
	movq	$-1, 208(%rsp)                  # 8-byte Folded Spill
.LBB22_19:                              # %join.7.i.i.i
                                        # =>This Loop Header: Depth=1
                                        #     Child Loop BB22_27 Depth 2
                                        #     Child Loop BB22_40 Depth 2
                                        #     Child Loop BB22_43 Depth 2
                                        #     Child Loop BB22_48 Depth 2
                                        #     Child Loop BB22_52 Depth 2
                                        #     Child Loop BB22_54 Depth 2
                                        #     Child Loop BB22_61 Depth 2
                                        #       Child Loop BB22_77 Depth 3
                                        #       Child Loop BB22_80 Depth 3
                                        #       Child Loop BB22_84 Depth 3
                                        #       Child Loop BB22_88 Depth 3
	movq	%r9, 192(%rsp)                  # 8-byte Spill
	leaq	2(%rsi), %rax
	movl	$13, %ecx
	movq	%rax, 80(%rsp)                  # 8-byte Spill
	cmpq	%rax, %r14
	jb	.LBB22_9
# %bb.20:                               # %join.3.i.i.i.i
                                        #   in Loop: Header=BB22_19 Depth=1
	cmpq	%r14, %rsi
	jae	.LBB22_22
# %bb.21:                               # %then.1.i.i.i.i.i.i
                                        #   in Loop: Header=BB22_19 Depth=1
	movzbl	(%r11,%rsi), %eax
	jmp	.LBB22_23
.LBB22_22:                              #   in Loop: Header=BB22_19 Depth=1
	xorl	%eax, %eax
.LBB22_23:                              # %"records::byte_at.exit.i.i.i.i.i"
                                        #   in Loop: Header=BB22_19 Depth=1
	leaq	1(%rsi), %rdx
	movl	$32, %ecx
	cmpq	%r14, %rdx
	jae	.LBB22_9
# %bb.24:                               # %"catalogue::sites::site_at.exit.i.i.i.i"
                                        #   in Loop: Header=BB22_19 Depth=1
	movzbl	(%r11,%rdx), %edx
	movq	%rdx, 88(%rsp)                  # 8-byte Spill
	addl	$-9, %edx
	cmpb	$-8, %dl
	jb	.LBB22_9
# %bb.25:                               # %join.6.i.i.i.i
                                        #   in Loop: Header=BB22_19 Depth=1
	movzbl	%al, %ecx
	leal	-1(%rcx), %edx
	cmpl	560(%rsp), %edx                 # 4-byte Folded Reload
	jae	.LBB22_102
# %bb.26:                               # %join.9.i.i.i.i
                                        #   in Loop: Header=BB22_19 Depth=1
	movq	%rsi, 56(%rsp)                  # 8-byte Spill
	movzbl	88(%rsp), %edx                  # 1-byte Folded Reload
	movq	%rdx, 200(%rsp)                 # 8-byte Spill
	movdqa	96(%rsp), %xmm0
	movdqa	112(%rsp), %xmm1
	movdqa	128(%rsp), %xmm2
	movdqa	144(%rsp), %xmm3
	movdqa	%xmm3, 288(%rsp)
	movdqa	%xmm2, 272(%rsp)
	movdqa	%xmm1, 256(%rsp)
	movdqa	%xmm0, 240(%rsp)
	movq	208(%rsp), %rdx                 # 8-byte Reload
	movq	216(%rsp), %rsi                 # 8-byte Reload
	.p2align	4
.LBB22_27:                              # %loop.2.i.i.i.i.i
                                        #   Parent Loop BB22_19 Depth=1
                                        # =>  This Inner Loop Header: Depth=2
	incq	%rdx
	je	.LBB22_29
# %bb.28:                               # %join.5.i.i.i.i.i
                                        #   in Loop: Header=BB22_27 Depth=2
	cmpb	%al, (%rsi)
	leaq	-16(%rsi), %rsi
	jne	.LBB22_27
	jmp	.LBB22_99
.LBB22_29:                              # %join.12.i.i.i.i
                                        #   in Loop: Header=BB22_19 Depth=1
	cmpq	%rdi, %r12
	movq	%r14, 16(%rsp)                  # 8-byte Spill
	movq	%rdi, 176(%rsp)                 # 8-byte Spill
	movq	%r8, 64(%rsp)                   # 8-byte Spill
	jb	.LBB22_30
# %bb.31:                               # %"assembly::bonds_part.exit.i.i.i.i.i.i"
                                        #   in Loop: Header=BB22_19 Depth=1
	testl	$130817, %r8d                   # imm = 0x1FF01
	je	.LBB22_35
# %bb.32:                               # %join.3.i2.i.i.i.i.i.i
                                        #   in Loop: Header=BB22_19 Depth=1
	cmpq	$2, %r8
	jb	.LBB22_30
# %bb.33:                               # %join.5.i6.i.i.i.i.i.i.i.preheader
                                        #   in Loop: Header=BB22_19 Depth=1
	cmpq	$6, 552(%rsp)                   # 8-byte Folded Reload
	jae	.LBB22_39
# %bb.34:                               #   in Loop: Header=BB22_19 Depth=1
	xorl	%ecx, %ecx
	xorl	%edx, %edx
	jmp	.LBB22_42
.LBB22_35:                              # %then.4.i.i.i.i.i.i.i
                                        #   in Loop: Header=BB22_19 Depth=1
	testq	%r8, %r8
	je	.LBB22_30
# %bb.36:                               # %iter.check103
                                        #   in Loop: Header=BB22_19 Depth=1
	cmpq	$4, %r8
	jae	.LBB22_45
# %bb.37:                               #   in Loop: Header=BB22_19 Depth=1
	xorl	%edx, %edx
	xorl	%edi, %edi
	movq	72(%rsp), %r9                   # 8-byte Reload
	jmp	.LBB22_54
.LBB22_30:                              #   in Loop: Header=BB22_19 Depth=1
	xorl	%ecx, %ecx
.LBB22_56:                              # %"catalogue::candidates::is_full.exit.i.i.i.i.i"
                                        #   in Loop: Header=BB22_19 Depth=1
	cmpb	$0, 88(%rsp)                    # 1-byte Folded Reload
	je	.LBB22_92
# %bb.57:                               # %join.5.lr.ph.i.i.i.i.i
                                        #   in Loop: Header=BB22_19 Depth=1
	movq	80(%rsp), %r14                  # 8-byte Reload
	movq	200(%rsp), %rdi                 # 8-byte Reload
	cmpq	$5, %rcx
	jbe	.LBB22_61
	jmp	.LBB22_104
.LBB22_58:                              # %"catalogue::candidates::ends_in.exit.loopexit.i.i.i.i.i.i.i.i.i"
                                        #   in Loop: Header=BB22_61 Depth=2
	movzbl	%dl, %r9d
.LBB22_59:                              # %"catalogue::candidates::is_own_full.exit.i.i.i.i.i.i"
                                        #   in Loop: Header=BB22_61 Depth=2
	cmpq	$6, %r9
	movq	48(%rsp), %rdi                  # 8-byte Reload
	jae	.LBB22_103
.LBB22_60:                              # %join.8.i.i.i.i.i
                                        #   in Loop: Header=BB22_61 Depth=2
	decq	%rdi
	movq	568(%rsp), %r14                 # 8-byte Reload
	je	.LBB22_92
.LBB22_61:                              # %join.5.i13.i.i.i.i
                                        #   Parent Loop BB22_19 Depth=1
                                        # =>  This Loop Header: Depth=2
                                        #       Child Loop BB22_77 Depth 3
                                        #       Child Loop BB22_80 Depth 3
                                        #       Child Loop BB22_84 Depth 3
                                        #       Child Loop BB22_88 Depth 3
	leaq	3(%r14), %rax
	cmpq	%rax, 16(%rsp)                  # 8-byte Folded Reload
	jb	.LBB22_100
# %bb.62:                               # %join.3.i.i.i.i.i.i
                                        #   in Loop: Header=BB22_61 Depth=2
	movq	%rax, 568(%rsp)                 # 8-byte Spill
	movq	%rdi, 48(%rsp)                  # 8-byte Spill
	movzwl	(%r11,%r14), %ebp
	leaq	240(%rsp), %rdi
	leaq	608(%rsp), %rsi
	movq	%r10, %rdx
	movq	%rbp, %rcx
	callq	"assembly::find_block"
	movl	$16, %ecx
	testq	%rbp, %rbp
	je	.LBB22_9
# %bb.63:                               # %join.3.i.i.i.i.i.i
                                        #   in Loop: Header=BB22_61 Depth=2
	cmpw	240(%rsp), %bp
	jne	.LBB22_9
# %bb.64:                               # %join.6.i.i.i.i.i.i
                                        #   in Loop: Header=BB22_61 Depth=2
	movq	32(%rsp), %r11                  # 8-byte Reload
	movzbl	2(%r11,%r14), %eax
	movzwl	244(%rsp), %ecx
	leal	-1(%rax), %edx
	cmpl	%ecx, %edx
	jae	.LBB22_102
# %bb.65:                               # %join.12.i.i.i.i.i.i
                                        #   in Loop: Header=BB22_61 Depth=2
	movq	240(%rsp), %rcx
	movq	%rcx, %rdx
	shrq	$16, %rdx
	movzwl	%dx, %esi
	movq	%rcx, %rdx
	shrq	$48, %rdx
	cmpl	$17, %edx
	setae	%dl
	leaq	38(%rsi), %rdi
	cmpq	%rdi, %r12
	setb	%dil
	orb	%dl, %dil
	je	.LBB22_67
# %bb.66:                               # %join.3.i.i.i.i.i.i.i
                                        #   in Loop: Header=BB22_61 Depth=2
	cmpq	%rsi, %r12
	jmp	.LBB22_68
.LBB22_67:                              # %"catalogue::candidates::is_sparse.exit.i.i.i.i.i.i.i"
                                        #   in Loop: Header=BB22_61 Depth=2
	movdqu	6(%r13,%rsi), %xmm0
	movdqu	22(%r13,%rsi), %xmm1
	movzbl	%al, %edx
	movd	%edx, %xmm2
	punpcklbw	%xmm2, %xmm2            # xmm2 = xmm2[0,0,1,1,2,2,3,3,4,4,5,5,6,6,7,7]
	pshuflw	$0, %xmm2, %xmm2                # xmm2 = xmm2[0,0,0,0,4,5,6,7]
	pshufd	$68, %xmm2, %xmm2               # xmm2 = xmm2[0,1,0,1]
	pcmpeqb	%xmm2, %xmm0
	pmovmskb	%xmm0, %edx
	pcmpeqb	%xmm2, %xmm1
	pmovmskb	%xmm1, %edi
	shll	$16, %edi
	orl	%edx, %edi
	movl	%edi, %edx
	shrl	%edx
	andl	$1431655765, %edx               # imm = 0x55555555
	subl	%edx, %edi
	movl	%edi, %edx
	andl	$858993459, %edx                # imm = 0x33333333
	shrl	$2, %edi
	andl	$858993459, %edi                # imm = 0x33333333
	addl	%edx, %edi
	movl	%edi, %edx
	shrl	$4, %edx
	addl	%edi, %edx
	andl	$252645135, %edx                # imm = 0xF0F0F0F
	imull	$16843009, %edx, %edx           # imm = 0x1010101
	shrl	$24, %edx
	cmpl	$6, %edx
.LBB22_68:                              # %join.3.i.i.i.i.i.i.i
                                        #   in Loop: Header=BB22_61 Depth=2
	movq	24(%rsp), %r10                  # 8-byte Reload
	movq	48(%rsp), %rdi                  # 8-byte Reload
	jb	.LBB22_60
# %bb.69:                               # %"assembly::bonds_part.exit.i.i.i.i.i.i.i.i"
                                        #   in Loop: Header=BB22_61 Depth=2
	addq	$6, %rsi
	shrq	$47, %rcx
	andl	$-2, %ecx
	movq	%r12, %rdi
	subq	%rsi, %rdi
	movq	%rsi, %rdx
	cmovbq	%r12, %rdx
	cmpq	%rcx, %rdi
	cmovaeq	%rcx, %rdi
	xorl	%ecx, %ecx
	cmpq	%rsi, %r12
	cmovaeq	%rdi, %rcx
	testl	$130817, %ecx                   # imm = 0x1FF01
	je	.LBB22_73
# %bb.70:                               # %join.3.i2.i.i.i.i.i.i.i.i
                                        #   in Loop: Header=BB22_61 Depth=2
	cmpq	$2, %rcx
	movq	48(%rsp), %rdi                  # 8-byte Reload
	jb	.LBB22_60
# %bb.71:                               # %join.5.i6.i.i.i.i.i.i.i.i.i.preheader
                                        #   in Loop: Header=BB22_61 Depth=2
	leaq	-2(%rcx), %rdi
	cmpq	$6, %rdi
	jae	.LBB22_76
# %bb.72:                               #   in Loop: Header=BB22_61 Depth=2
	xorl	%r9d, %r9d
	xorl	%esi, %esi
	jmp	.LBB22_79
.LBB22_73:                              # %then.4.i.i.i.i.i.i.i.i.i
                                        #   in Loop: Header=BB22_61 Depth=2
	testq	%rcx, %rcx
	movq	48(%rsp), %rdi                  # 8-byte Reload
	je	.LBB22_60
# %bb.74:                               # %iter.check
                                        #   in Loop: Header=BB22_61 Depth=2
	leaq	(%rdx,%r13), %rsi
	cmpq	$4, %rcx
	jae	.LBB22_81
# %bb.75:                               #   in Loop: Header=BB22_61 Depth=2
	xorl	%edx, %edx
	xorl	%edi, %edi
	jmp	.LBB22_90
.LBB22_76:                              # %vector.ph85
                                        #   in Loop: Header=BB22_61 Depth=2
	shrq	%rdi
	incq	%rdi
	movq	%rdi, %r8
	andq	$-4, %r8
	leaq	(%r8,%r8), %rsi
	movzbl	%al, %r9d
	movd	%r9d, %xmm0
	punpcklbw	%xmm0, %xmm0            # xmm0 = xmm0[0,0,1,1,2,2,3,3,4,4,5,5,6,6,7,7]
	leaq	7(%r13), %r9
	addq	%rdx, %r9
	pxor	%xmm1, %xmm1
	xorl	%r10d, %r10d
	pxor	%xmm2, %xmm2
.LBB22_77:                              # %vector.body90
                                        #   Parent Loop BB22_19 Depth=1
                                        #     Parent Loop BB22_61 Depth=2
                                        # =>    This Inner Loop Header: Depth=3
	movzbl	-7(%r9,%r10,2), %r11d
	movzbl	-5(%r9,%r10,2), %ebp
	shll	$8, %ebp
	orl	%r11d, %ebp
	movd	%ebp, %xmm5
	movzbl	-3(%r9,%r10,2), %r11d
	movzbl	-1(%r9,%r10,2), %ebp
	shll	$8, %ebp
	orl	%r11d, %ebp
	movd	%ebp, %xmm6
	movzbl	-6(%r9,%r10,2), %r11d
	movzbl	-4(%r9,%r10,2), %ebp
	shll	$8, %ebp
	orl	%r11d, %ebp
	movd	%ebp, %xmm4
	movzbl	-2(%r9,%r10,2), %r11d
	movzbl	(%r9,%r10,2), %ebp
	shll	$8, %ebp
	orl	%r11d, %ebp
	movd	%ebp, %xmm3
	pcmpeqb	%xmm0, %xmm5
	punpcklbw	%xmm5, %xmm5            # xmm5 = xmm5[0,0,1,1,2,2,3,3,4,4,5,5,6,6,7,7]
	pshuflw	$212, %xmm5, %xmm5              # xmm5 = xmm5[0,1,1,3,4,5,6,7]
	pshufd	$212, %xmm5, %xmm5              # xmm5 = xmm5[0,1,1,3]
	movdqa	.LCPI22_0(%rip), %xmm7          # xmm7 = [1,1]
	pand	%xmm7, %xmm5
	paddq	%xmm2, %xmm5
	pcmpeqb	%xmm0, %xmm6
	punpcklbw	%xmm6, %xmm6            # xmm6 = xmm6[0,0,1,1,2,2,3,3,4,4,5,5,6,6,7,7]
	pshuflw	$212, %xmm6, %xmm2              # xmm2 = xmm6[0,1,1,3,4,5,6,7]
	pshufd	$212, %xmm2, %xmm6              # xmm6 = xmm2[0,1,1,3]
	pand	%xmm7, %xmm6
	paddq	%xmm1, %xmm6
	pcmpeqb	%xmm0, %xmm4
	punpcklbw	%xmm4, %xmm4            # xmm4 = xmm4[0,0,1,1,2,2,3,3,4,4,5,5,6,6,7,7]
	pshuflw	$212, %xmm4, %xmm1              # xmm1 = xmm4[0,1,1,3,4,5,6,7]
	pshufd	$212, %xmm1, %xmm2              # xmm2 = xmm1[0,1,1,3]
	pand	%xmm7, %xmm2
	paddq	%xmm5, %xmm2
	pcmpeqb	%xmm0, %xmm3
	punpcklbw	%xmm3, %xmm3            # xmm3 = xmm3[0,0,1,1,2,2,3,3,4,4,5,5,6,6,7,7]
	pshuflw	$212, %xmm3, %xmm1              # xmm1 = xmm3[0,1,1,3,4,5,6,7]
	pshufd	$212, %xmm1, %xmm1              # xmm1 = xmm1[0,1,1,3]
	pand	%xmm7, %xmm1
	paddq	%xmm6, %xmm1
	addq	$4, %r10
	cmpq	%r10, %r8
	jne	.LBB22_77
# %bb.78:                               # %middle.block95
                                        #   in Loop: Header=BB22_61 Depth=2
	paddq	%xmm2, %xmm1
	pshufd	$238, %xmm1, %xmm0              # xmm0 = xmm1[2,3,2,3]
	paddq	%xmm1, %xmm0
	movq	%xmm0, %r9
	cmpq	%r8, %rdi
	movq	24(%rsp), %r10                  # 8-byte Reload
	movq	32(%rsp), %r11                  # 8-byte Reload
	je	.LBB22_59
.LBB22_79:                              # %join.5.i6.i.i.i.i.i.i.i.i.i.preheader158
                                        #   in Loop: Header=BB22_61 Depth=2
	subq	%rsi, %rcx
	addq	%rsi, %rdx
	leaq	1(%r13), %rsi
	addq	%rsi, %rdx
	movq	%r9, %rsi
.LBB22_80:                              # %join.5.i6.i.i.i.i.i.i.i.i.i
                                        #   Parent Loop BB22_19 Depth=1
                                        #     Parent Loop BB22_61 Depth=2
                                        # =>    This Inner Loop Header: Depth=3
	xorl	%r9d, %r9d
	cmpb	%al, -1(%rdx)
	sete	%r9b
	xorl	%edi, %edi
	cmpb	%al, (%rdx)
	sete	%dil
	addq	%rsi, %r9
	addq	%rdi, %r9
	addq	$-2, %rcx
	addq	$2, %rdx
	movq	%r9, %rsi
	cmpq	$1, %rcx
	ja	.LBB22_80
	jmp	.LBB22_59
.LBB22_81:                              # %vector.main.loop.iter.check
                                        #   in Loop: Header=BB22_61 Depth=2
	cmpq	$32, %rcx
	jae	.LBB22_83
# %bb.82:                               #   in Loop: Header=BB22_61 Depth=2
	xorl	%edi, %edi
	xorl	%edx, %edx
	jmp	.LBB22_87
.LBB22_83:                              # %vector.ph
                                        #   in Loop: Header=BB22_61 Depth=2
	movl	%ecx, %edi
	andl	$224, %edi
	movzbl	%al, %r8d
	movd	%r8d, %xmm0
	punpcklbw	%xmm0, %xmm0            # xmm0 = xmm0[0,0,1,1,2,2,3,3,4,4,5,5,6,6,7,7]
	pshuflw	$0, %xmm0, %xmm0                # xmm0 = xmm0[0,0,0,0,4,5,6,7]
	pshufd	$68, %xmm0, %xmm1               # xmm1 = xmm0[0,1,0,1]
	leaq	16(%r13), %r8
	addq	%r8, %rdx
	pxor	%xmm0, %xmm0
	xorl	%r8d, %r8d
	pxor	%xmm2, %xmm2
.LBB22_84:                              # %vector.body
                                        #   Parent Loop BB22_19 Depth=1
                                        #     Parent Loop BB22_61 Depth=2
                                        # =>    This Inner Loop Header: Depth=3
	movdqu	-16(%rdx,%r8), %xmm3
	movdqu	(%rdx,%r8), %xmm4
	pcmpeqb	%xmm1, %xmm3
	psubb	%xmm3, %xmm2
	pcmpeqb	%xmm1, %xmm4
	psubb	%xmm4, %xmm0
	addq	$32, %r8
	cmpq	%r8, %rdi
	jne	.LBB22_84
# %bb.85:                               # %middle.block
                                        #   in Loop: Header=BB22_61 Depth=2
	paddb	%xmm2, %xmm0
	pshufd	$238, %xmm0, %xmm1              # xmm1 = xmm0[2,3,2,3]
	paddb	%xmm0, %xmm1
	pxor	%xmm0, %xmm0
	psadbw	%xmm1, %xmm0
	movd	%xmm0, %edx
	cmpq	%rdi, %rcx
	je	.LBB22_58
# %bb.86:                               # %vec.epilog.iter.check
                                        #   in Loop: Header=BB22_61 Depth=2
	testb	$28, %cl
	je	.LBB22_90
.LBB22_87:                              # %vec.epilog.ph
                                        #   in Loop: Header=BB22_61 Depth=2
	movq	%rdi, %r8
	movl	%ecx, %edi
	andl	$252, %edi
	movzbl	%dl, %edx
	movd	%edx, %xmm0
	movzbl	%al, %edx
	movd	%edx, %xmm1
	punpcklbw	%xmm1, %xmm1            # xmm1 = xmm1[0,0,1,1,2,2,3,3,4,4,5,5,6,6,7,7]
	pshuflw	$0, %xmm1, %xmm1                # xmm1 = xmm1[0,0,0,0,4,5,6,7]
.LBB22_88:                              # %vec.epilog.vector.body
                                        #   Parent Loop BB22_19 Depth=1
                                        #     Parent Loop BB22_61 Depth=2
                                        # =>    This Inner Loop Header: Depth=3
	movd	(%rsi,%r8), %xmm2               # xmm2 = mem[0],zero,zero,zero
	pcmpeqb	%xmm1, %xmm2
	psubb	%xmm2, %xmm0
	addq	$4, %r8
	cmpq	%r8, %rdi
	jne	.LBB22_88
# %bb.89:                               # %vec.epilog.middle.block
                                        #   in Loop: Header=BB22_61 Depth=2
	pxor	%xmm1, %xmm1
	punpckldq	%xmm1, %xmm0            # xmm0 = xmm0[0],xmm1[0],xmm0[1],xmm1[1]
	psadbw	%xmm1, %xmm0
	movd	%xmm0, %edx
	jmp	.LBB22_91
.LBB22_90:                              # %join.5.i.i.i.i.i.i.i.i.i.i
                                        #   in Loop: Header=BB22_61 Depth=2
	cmpb	%al, (%rsi,%rdi)
	sete	%r8b
	addb	%r8b, %dl
	incq	%rdi
.LBB22_91:                              # %join.5.i.i.i.i.i.i.i.i.i.i
                                        #   in Loop: Header=BB22_61 Depth=2
	cmpq	%rdi, %rcx
	jne	.LBB22_90
	jmp	.LBB22_58
.LBB22_92:                              # %join.10.i.i.i
                                        #   in Loop: Header=BB22_19 Depth=1
	movq	16(%rsp), %r14                  # 8-byte Reload
	movq	56(%rsp), %rax                  # 8-byte Reload
	cmpq	%r14, %rax
	jae	.LBB22_94
# %bb.93:                               # %then.1.i.i.i.i.i
                                        #   in Loop: Header=BB22_19 Depth=1
	movzbl	(%r11,%rax), %eax
	jmp	.LBB22_95
.LBB22_94:                              #   in Loop: Header=BB22_19 Depth=1
	xorl	%eax, %eax
.LBB22_95:                              # %"catalogue::sites::site_at.exit.i.i.i"
                                        #   in Loop: Header=BB22_19 Depth=1
	movq	176(%rsp), %rdi                 # 8-byte Reload
	movq	64(%rsp), %r8                   # 8-byte Reload
	movq	192(%rsp), %rdx                 # 8-byte Reload
	movq	%rdx, %rcx
	shlq	$4, %rcx
	movb	%al, 96(%rsp,%rcx)
	movq	88(%rsp), %rax                  # 8-byte Reload
	movb	%al, 97(%rsp,%rcx)
	movl	$0, 98(%rsp,%rcx)
	movw	$0, 102(%rsp,%rcx)
	movq	80(%rsp), %rax                  # 8-byte Reload
	movq	%rax, 104(%rsp,%rcx)
	incq	%rdx
	movq	%rdx, %r9
	movq	200(%rsp), %rcx                 # 8-byte Reload
	leaq	(%rcx,%rcx,2), %rsi
	addq	%rax, %rsi
	addq	$16, 216(%rsp)                  # 8-byte Folded Spill
	decq	208(%rsp)                       # 8-byte Folded Spill
	cmpq	40(%rsp), %rdx                  # 8-byte Folded Reload
	jne	.LBB22_19
	jmp	.LBB22_96
.LBB22_39:                              # %vector.ph142
                                        #   in Loop: Header=BB22_19 Depth=1
	movd	%ecx, %xmm0
	punpcklbw	%xmm0, %xmm0            # xmm0 = xmm0[0,0,1,1,2,2,3,3,4,4,5,5,6,6,7,7]
	pxor	%xmm1, %xmm1
	xorl	%ecx, %ecx
	pxor	%xmm2, %xmm2
	movq	528(%rsp), %rdi                 # 8-byte Reload
	movq	184(%rsp), %r8                  # 8-byte Reload
.LBB22_40:                              # %vector.body147
                                        #   Parent Loop BB22_19 Depth=1
                                        # =>  This Inner Loop Header: Depth=2
	movzbl	-7(%r8,%rcx,2), %edx
	movzbl	-5(%r8,%rcx,2), %esi
	shll	$8, %esi
	orl	%edx, %esi
	movd	%esi, %xmm5
	movzbl	-3(%r8,%rcx,2), %edx
	movzbl	-1(%r8,%rcx,2), %esi
	shll	$8, %esi
	orl	%edx, %esi
	movd	%esi, %xmm6
	movzbl	-6(%r8,%rcx,2), %edx
	movzbl	-4(%r8,%rcx,2), %esi
	shll	$8, %esi
	orl	%edx, %esi
	movd	%esi, %xmm4
	movzbl	-2(%r8,%rcx,2), %edx
	movzbl	(%r8,%rcx,2), %esi
	shll	$8, %esi
	orl	%edx, %esi
	movd	%esi, %xmm3
	pcmpeqb	%xmm0, %xmm5
	punpcklbw	%xmm5, %xmm5            # xmm5 = xmm5[0,0,1,1,2,2,3,3,4,4,5,5,6,6,7,7]
	pshuflw	$212, %xmm5, %xmm5              # xmm5 = xmm5[0,1,1,3,4,5,6,7]
	pshufd	$212, %xmm5, %xmm5              # xmm5 = xmm5[0,1,1,3]
	movdqa	.LCPI22_0(%rip), %xmm7          # xmm7 = [1,1]
	pand	%xmm7, %xmm5
	paddq	%xmm2, %xmm5
	pcmpeqb	%xmm0, %xmm6
	punpcklbw	%xmm6, %xmm6            # xmm6 = xmm6[0,0,1,1,2,2,3,3,4,4,5,5,6,6,7,7]
	pshuflw	$212, %xmm6, %xmm2              # xmm2 = xmm6[0,1,1,3,4,5,6,7]
	pshufd	$212, %xmm2, %xmm6              # xmm6 = xmm2[0,1,1,3]
	pand	%xmm7, %xmm6
	paddq	%xmm1, %xmm6
	pcmpeqb	%xmm0, %xmm4
	punpcklbw	%xmm4, %xmm4            # xmm4 = xmm4[0,0,1,1,2,2,3,3,4,4,5,5,6,6,7,7]
	pshuflw	$212, %xmm4, %xmm1              # xmm1 = xmm4[0,1,1,3,4,5,6,7]
	pshufd	$212, %xmm1, %xmm2              # xmm2 = xmm1[0,1,1,3]
	pand	%xmm7, %xmm2
	paddq	%xmm5, %xmm2
	pcmpeqb	%xmm0, %xmm3
	punpcklbw	%xmm3, %xmm3            # xmm3 = xmm3[0,0,1,1,2,2,3,3,4,4,5,5,6,6,7,7]
	pshuflw	$212, %xmm3, %xmm1              # xmm1 = xmm3[0,1,1,3,4,5,6,7]
	pshufd	$212, %xmm1, %xmm1              # xmm1 = xmm1[0,1,1,3]
	pand	%xmm7, %xmm1
	paddq	%xmm6, %xmm1
	addq	$4, %rcx
	cmpq	%rcx, %rdi
	jne	.LBB22_40
# %bb.41:                               # %middle.block153
                                        #   in Loop: Header=BB22_19 Depth=1
	paddq	%xmm2, %xmm1
	pshufd	$238, %xmm1, %xmm0              # xmm0 = xmm1[2,3,2,3]
	paddq	%xmm1, %xmm0
	movq	%xmm0, %rcx
	movq	520(%rsp), %rdx                 # 8-byte Reload
	cmpq	%rdi, 536(%rsp)                 # 8-byte Folded Reload
	je	.LBB22_56
.LBB22_42:                              # %join.5.i6.i.i.i.i.i.i.i.preheader159
                                        #   in Loop: Header=BB22_19 Depth=1
	movq	64(%rsp), %rsi                  # 8-byte Reload
	subq	%rdx, %rsi
	addq	544(%rsp), %rdx                 # 8-byte Folded Reload
	movq	%rcx, %rdi
.LBB22_43:                              # %join.5.i6.i.i.i.i.i.i.i
                                        #   Parent Loop BB22_19 Depth=1
                                        # =>  This Inner Loop Header: Depth=2
	xorl	%ecx, %ecx
	cmpb	%al, -1(%rdx)
	sete	%cl
	xorl	%r8d, %r8d
	cmpb	%al, (%rdx)
	sete	%r8b
	addq	%rdi, %rcx
	addq	%r8, %rcx
	addq	$-2, %rsi
	addq	$2, %rdx
	movq	%rcx, %rdi
	cmpq	$1, %rsi
	ja	.LBB22_43
	jmp	.LBB22_56
.LBB22_45:                              # %vector.main.loop.iter.check105
                                        #   in Loop: Header=BB22_19 Depth=1
	cmpq	$32, %r8
	jae	.LBB22_47
# %bb.46:                               #   in Loop: Header=BB22_19 Depth=1
	xorl	%esi, %esi
	xorl	%edx, %edx
	movq	72(%rsp), %r9                   # 8-byte Reload
	jmp	.LBB22_51
.LBB22_47:                              # %vector.ph106
                                        #   in Loop: Header=BB22_19 Depth=1
	movd	%ecx, %xmm0
	punpcklbw	%xmm0, %xmm0            # xmm0 = xmm0[0,0,1,1,2,2,3,3,4,4,5,5,6,6,7,7]
	pshuflw	$0, %xmm0, %xmm0                # xmm0 = xmm0[0,0,0,0,4,5,6,7]
	pshufd	$68, %xmm0, %xmm1               # xmm1 = xmm0[0,1,0,1]
	pxor	%xmm0, %xmm0
	xorl	%edx, %edx
	pxor	%xmm2, %xmm2
	movq	504(%rsp), %rsi                 # 8-byte Reload
	movq	184(%rsp), %r9                  # 8-byte Reload
.LBB22_48:                              # %vector.body111
                                        #   Parent Loop BB22_19 Depth=1
                                        # =>  This Inner Loop Header: Depth=2
	movdqu	-7(%r9,%rdx), %xmm3
	movdqu	9(%r9,%rdx), %xmm4
	pcmpeqb	%xmm1, %xmm3
	psubb	%xmm3, %xmm2
	pcmpeqb	%xmm1, %xmm4
	psubb	%xmm4, %xmm0
	addq	$32, %rdx
	cmpq	%rdx, %rsi
	jne	.LBB22_48
# %bb.49:                               # %middle.block118
                                        #   in Loop: Header=BB22_19 Depth=1
	paddb	%xmm2, %xmm0
	pshufd	$238, %xmm0, %xmm1              # xmm1 = xmm0[2,3,2,3]
	paddb	%xmm0, %xmm1
	pxor	%xmm0, %xmm0
	psadbw	%xmm1, %xmm0
	movd	%xmm0, %edx
	cmpq	%rsi, %r8
	je	.LBB22_55
# %bb.50:                               # %vec.epilog.iter.check124
                                        #   in Loop: Header=BB22_19 Depth=1
	movq	%rsi, %rdi
	testb	$28, %r8b
	movq	72(%rsp), %r9                   # 8-byte Reload
	je	.LBB22_54
.LBB22_51:                              # %vec.epilog.ph126
                                        #   in Loop: Header=BB22_19 Depth=1
	movzbl	%dl, %edx
	movd	%edx, %xmm0
	movd	%ecx, %xmm1
	punpcklbw	%xmm1, %xmm1            # xmm1 = xmm1[0,0,1,1,2,2,3,3,4,4,5,5,6,6,7,7]
	pshuflw	$0, %xmm1, %xmm1                # xmm1 = xmm1[0,0,0,0,4,5,6,7]
	movq	512(%rsp), %rcx                 # 8-byte Reload
.LBB22_52:                              # %vec.epilog.vector.body131
                                        #   Parent Loop BB22_19 Depth=1
                                        # =>  This Inner Loop Header: Depth=2
	movd	(%r9,%rsi), %xmm2               # xmm2 = mem[0],zero,zero,zero
	pcmpeqb	%xmm1, %xmm2
	psubb	%xmm2, %xmm0
	addq	$4, %rsi
	cmpq	%rsi, %rcx
	jne	.LBB22_52
# %bb.53:                               # %vec.epilog.middle.block136
                                        #   in Loop: Header=BB22_19 Depth=1
	pxor	%xmm1, %xmm1
	punpckldq	%xmm1, %xmm0            # xmm0 = xmm0[0],xmm1[0],xmm0[1],xmm1[1]
	psadbw	%xmm1, %xmm0
	movd	%xmm0, %edx
	movq	%rcx, %rdi
	cmpq	%rcx, %r8
	je	.LBB22_55
.LBB22_54:                              # %join.5.i.i.i.i.i.i.i.i
                                        #   Parent Loop BB22_19 Depth=1
                                        # =>  This Inner Loop Header: Depth=2
	cmpb	%al, (%r9,%rdi)
	sete	%cl
	addb	%cl, %dl
	incq	%rdi
	cmpq	%rdi, %r8
	jne	.LBB22_54
.LBB22_55:                              # %"catalogue::candidates::ends_in.exit.loopexit.i.i.i.i.i.i.i"
                                        #   in Loop: Header=BB22_19 Depth=1
	movzbl	%dl, %ecx
	jmp	.LBB22_56
.LBB22_99:                              # %"catalogue::sites::is_taken.exit.thread.i.i.i.i"
	movl	$33, %ecx
	jmp	.LBB22_9
.LBB22_102:
	movl	$18, %ecx
	jmp	.LBB22_9
.LBB22_100:
	movl	$13, %ecx
	jmp	.LBB22_9
.LBB22_103:
	movl	$19, %ecx
	jmp	.LBB22_9
.LBB22_104:                             # %join.5.us.i.i.i.i.i
	movq	56(%rsp), %rax                  # 8-byte Reload
	addq	$5, %rax
	movl	$13, %ecx
	cmpq	%rax, 16(%rsp)                  # 8-byte Folded Reload
	jb	.LBB22_9
# %bb.105:                              # %join.3.i.us.i.i.i.i.i
	movq	80(%rsp), %rax                  # 8-byte Reload
	cmpq	16(%rsp), %rax                  # 8-byte Folded Reload
	jae	.LBB22_108
# %bb.106:                              # %"records::byte_at.exit.i.i.us.i.i.i.i.i"
	movq	32(%rsp), %rax                  # 8-byte Reload
	movq	56(%rsp), %rcx                  # 8-byte Reload
	movzbl	2(%rax,%rcx), %ebp
	leaq	3(%rcx), %rax
	cmpq	16(%rsp), %rax                  # 8-byte Folded Reload
	jae	.LBB22_109
# %bb.107:                              # %then.1.i6.i.i.us.i.i.i.i.i
	movq	32(%rsp), %rcx                  # 8-byte Reload
	movzbl	(%rcx,%rax), %eax
	shll	$8, %eax
	movzwl	%bp, %ebp
	orl	%eax, %ebp
	jmp	.LBB22_109
.LBB22_96:                              # %after.3.i.i.i
	movl	$13, %ecx
	cmpq	%r14, %rsi
	jb	.LBB22_9
# %bb.97:                               # %join.4.i
	movdqa	96(%rsp), %xmm0
	movdqa	112(%rsp), %xmm1
	movdqa	128(%rsp), %xmm2
	movdqa	144(%rsp), %xmm3
	movdqa	%xmm0, 96(%rsp)
	movdqa	%xmm1, 112(%rsp)
	movdqa	%xmm2, 128(%rsp)
	movdqa	%xmm3, 144(%rsp)
	cmpq	%r12, 224(%rsp)                 # 8-byte Folded Reload
	jae	.LBB22_114
# %bb.98:                               # %then.5.i
	movl	$0, 11(%rsp)
	movl	$0, 8(%rsp)
	pxor	%xmm0, %xmm0
	movdqa	%xmm0, 368(%rsp)
	movdqa	%xmm0, 384(%rsp)
	movdqa	%xmm0, 400(%rsp)
	movdqa	%xmm0, 416(%rsp)
	movdqa	%xmm0, 432(%rsp)
	movdqa	%xmm0, 448(%rsp)
	movdqa	%xmm0, 464(%rsp)
	movdqa	%xmm0, 480(%rsp)
	movdqa	%xmm0, 304(%rsp)
	movdqa	%xmm0, 320(%rsp)
	movdqa	%xmm0, 336(%rsp)
	movdqa	%xmm0, 352(%rsp)
	movl	$11, %ecx
	movb	$1, %dl
	xorl	%edi, %edi
	xorl	%r15d, %r15d
	xorl	%r8d, %r8d
	xorl	%eax, %eax
	movq	224(%rsp), %r9                  # 8-byte Reload
	jmp	.LBB22_10
.LBB22_108:
	xorl	%ebp, %ebp
.LBB22_109:                             # %"records::le16_at.exit.i.us.i.i.i.i.i"
	movzwl	%bp, %r12d
	leaq	240(%rsp), %rdi
	leaq	608(%rsp), %rsi
	movq	24(%rsp), %rdx                  # 8-byte Reload
	movq	%r12, %rcx
	callq	"assembly::find_block"
	movl	$16, %ecx
	testw	%r12w, %r12w
	je	.LBB22_9
# %bb.110:                              # %"records::le16_at.exit.i.us.i.i.i.i.i"
	cmpw	240(%rsp), %bp
	jne	.LBB22_9
# %bb.111:                              # %join.6.i.us.i.i.i.i.i
	movq	56(%rsp), %rdx                  # 8-byte Reload
	addq	$4, %rdx
	movq	$-1, %rax
	cmpq	16(%rsp), %rdx                  # 8-byte Folded Reload
	jae	.LBB22_113
# %bb.112:                              # %then.1.i.i.us.i.i.i.i.i
	movq	32(%rsp), %rax                  # 8-byte Reload
	movzbl	(%rax,%rdx), %eax
	decq	%rax
.LBB22_113:                             # %"records::byte_at.exit.i.us.i.i.i.i.i"
	movzwl	244(%rsp), %edx
	xorl	%ecx, %ecx
	cmpl	%edx, %eax
	adcq	$18, %rcx
	jmp	.LBB22_9
.LBB22_114:                             # %join.7.i
	movaps	96(%rsp), %xmm0
	movaps	112(%rsp), %xmm1
	movaps	128(%rsp), %xmm2
	movaps	144(%rsp), %xmm3
	movaps	%xmm3, 288(%rsp)
	movaps	%xmm2, 272(%rsp)
	movaps	%xmm1, 256(%rsp)
	movaps	%xmm0, 240(%rsp)
	movq	40(%rsp), %rcx                  # 8-byte Reload
	leal	-1(%rcx), %eax
                                        # kill: def $ecx killed $ecx killed $rcx def $rcx
	andl	$3, %ecx
	cmpl	$3, %eax
	jae	.LBB22_116
# %bb.115:
	movl	$1, %eax
	xorl	%edx, %edx
	jmp	.LBB22_119
.LBB22_116:                             # %join.7.i.new
	movq	40(%rsp), %rsi                  # 8-byte Reload
                                        # kill: def $esi killed $esi killed $rsi def $rsi
	andl	$-4, %esi
	movl	$1, %eax
	leaq	289(%rsp), %rdi
	xorl	%edx, %edx
.LBB22_117:                             # %join.5.i.i
                                        # =>This Inner Loop Header: Depth=1
	movzbl	-48(%rdi), %r8d
	imulq	%rax, %r8
	movzbl	-32(%rdi), %eax
	movzbl	-16(%rdi), %r9d
	imulq	%rax, %r9
	imulq	%r8, %r9
	movzbl	(%rdi), %eax
	imulq	%r9, %rax
	addq	$4, %rdx
	addq	$64, %rdi
	cmpq	%rdx, %rsi
	jne	.LBB22_117
# %bb.118:                              # %"catalogue::sites::count_of.exit.i.unr-lcssa"
	testq	%rcx, %rcx
	je	.LBB22_121
.LBB22_119:                             # %join.5.i.i.epil.preheader
	shlq	$4, %rdx
	leaq	240(%rsp), %rsi
	addq	%rsi, %rdx
	incq	%rdx
	shll	$4, %ecx
	xorl	%esi, %esi
.LBB22_120:                             # %join.5.i.i.epil
                                        # =>This Inner Loop Header: Depth=1
	movzbl	(%rdx,%rsi), %edi
	imulq	%rdi, %rax
	addq	$16, %rsi
	cmpq	%rsi, %rcx
	jne	.LBB22_120
.LBB22_121:                             # %"catalogue::sites::count_of.exit.i"
	movl	$0, 8(%rsp)
	movl	$0, 11(%rsp)
	leaq	608(%rsp), %rcx
	movups	(%rcx), %xmm0
	movups	16(%rcx), %xmm1
	movups	32(%rcx), %xmm2
	movups	48(%rcx), %xmm3
	movaps	%xmm0, 368(%rsp)
	movaps	%xmm1, 384(%rsp)
	movaps	%xmm2, 400(%rsp)
	movaps	%xmm3, 416(%rsp)
	movups	64(%rcx), %xmm0
	movaps	%xmm0, 432(%rsp)
	movups	80(%rcx), %xmm0
	movaps	%xmm0, 448(%rsp)
	movups	96(%rcx), %xmm0
	movaps	%xmm0, 464(%rsp)
	movups	112(%rcx), %xmm0
	movaps	%xmm0, 480(%rsp)
	movdqa	96(%rsp), %xmm0
	movdqa	112(%rsp), %xmm1
	movdqa	128(%rsp), %xmm2
	movdqa	144(%rsp), %xmm3
	movdqa	%xmm0, 304(%rsp)
	movdqa	%xmm1, 320(%rsp)
	movdqa	%xmm2, 336(%rsp)
	movdqa	%xmm3, 352(%rsp)
	xorl	%edx, %edx
	xorl	%ecx, %ecx
	xorl	%r9d, %r9d
	movq	24(%rsp), %rdi                  # 8-byte Reload
	movq	40(%rsp), %r8                   # 8-byte Reload
	jmp	.LBB22_10
.Lfunc_end22:
	.size	"catalogue::read_library", .Lfunc_end22-"catalogue::read_library"
                                        # -- End function
	.section	".text.stock::core_at","ax",@progbits
	.p2align	4                               # -- Begin function stock::core_at
	.type	"stock::core_at",@function
"stock::core_at":                       # @"stock::core_at"
# %bb.0:                                # %start
	pushq	%rbp
	pushq	%r15
	pushq	%r14
	pushq	%r13
	pushq	%r12
	pushq	%rbx
	subq	$1608, %rsp                     # imm = 0x648
	movq	%rdx, %r15
	movq	%rsi, %r14
	movq	%rdi, 24(%rsp)                  # 8-byte Spill
	movq	1664(%rsp), %rsi
	movq	1672(%rsp), %rdx
	testq	%rsi, %rsi
	je	.LBB23_1
# %bb.2:                                # %"records::byte_at.exit.i"
	movzbl	(%r9), %eax
	cmpq	$1, %rsi
	je	.LBB23_4
# %bb.3:                                # %then.1.i6.i
	movzbl	1(%r9), %esi
	shll	$8, %esi
	movzwl	%ax, %eax
	orl	%esi, %eax
	jmp	.LBB23_4
.LBB23_1:
	xorl	%eax, %eax
.LBB23_4:                               # %join.3.i
	movzbl	(%rdx), %esi
	movl	%esi, 16(%rsp)                  # 4-byte Spill
	movzbl	16(%rdx), %ebp
	movzbl	32(%rdx), %ebx
	movzbl	48(%rdx), %edx
	movl	%edx, 20(%rsp)                  # 4-byte Spill
	movups	(%rcx), %xmm0
	movups	16(%rcx), %xmm1
	movups	32(%rcx), %xmm2
	movups	48(%rcx), %xmm3
	movaps	%xmm0, 96(%rsp)
	movaps	%xmm1, 112(%rsp)
	movaps	%xmm2, 128(%rsp)
	movaps	%xmm3, 144(%rsp)
	movups	64(%rcx), %xmm0
	movaps	%xmm0, 160(%rsp)
	movups	80(%rcx), %xmm0
	movaps	%xmm0, 176(%rsp)
	movups	96(%rcx), %xmm0
	movaps	%xmm0, 192(%rsp)
	movdqu	112(%rcx), %xmm0
	movdqa	%xmm0, 208(%rsp)
	movzwl	%ax, %ecx
	leaq	8(%rsp), %rdi
	leaq	96(%rsp), %rsi
	movq	%r8, %rdx
	callq	"assembly::find_block"
	movzwl	12(%rsp), %r12d
	movzwl	10(%rsp), %eax
	cmpq	%rax, %r15
	jae	.LBB23_6
# %bb.5:
	xorl	%r13d, %r13d
	jmp	.LBB23_7
.LBB23_6:                               # %join.3.i.i
	movzwl	14(%rsp), %ecx
	addq	$6, %rax
	addl	%ecx, %ecx
	movq	%r15, %rdx
	subq	%rax, %rdx
	movq	%rax, %rsi
	cmovbq	%r15, %rsi
	cmpq	%rcx, %rdx
	cmovaeq	%rcx, %rdx
	xorl	%r13d, %r13d
	cmpq	%rax, %r15
	cmovaeq	%rdx, %r13
	movq	%rsi, %r15
.LBB23_7:                               # %"assembly::bonds_part.exit.i"
	addq	%r15, %r14
	movzwl	8(%rsp), %r15d
	leaq	232(%rsp), %rdi
	movl	$528, %edx                      # imm = 0x210
	xorl	%esi, %esi
	callq	memset@PLT
	pxor	%xmm0, %xmm0
	movdqa	%xmm0, 64(%rsp)
	movdqa	%xmm0, 48(%rsp)
	movdqa	%xmm0, 32(%rsp)
	movq	$0, 80(%rsp)
	leaq	32(%rsp), %rdi
	leaq	760(%rsp), %r8
	movq	%r12, %rsi
	movq	%r14, %rdx
	movq	%r13, %rcx
	callq	"reach::opened"
	cmpb	$0, 32(%rsp)
	jne	.LBB23_10
# %bb.8:                                # %arm.3.i.i.i
	movzbl	40(%rsp), %eax
	movl	72(%rsp), %ecx
	movzbl	80(%rsp), %edx
	movw	%r15w, 232(%rsp)
	movb	%al, 234(%rsp)
	movb	%dl, 235(%rsp)
	movdqu	56(%rsp), %xmm0
	pshufd	$232, %xmm0, %xmm0              # xmm0 = xmm0[0,2,2,3]
	movq	%xmm0, 236(%rsp)
	movl	%ecx, 244(%rsp)
	testq	%r12, %r12
	je	.LBB23_10
# %bb.9:                                # %join.5.i.i.i.preheader.i
	leaq	248(%rsp), %rdi
	shll	$3, %r12d
	leaq	760(%rsp), %rsi
	movq	%r12, %rdx
	callq	memcpy@PLT
.LBB23_10:                              # %"stock::hold.exit"
	movl	20(%rsp), %eax                  # 4-byte Reload
	shll	$24, %eax
	shll	$16, %ebx
	shll	$8, %ebp
	addl	16(%rsp), %ebp                  # 4-byte Folded Reload
	orl	%ebx, %ebp
	orl	%eax, %ebp
	leaq	1272(%rsp), %r14
	leaq	232(%rsp), %rsi
	movq	%r14, %rdi
	movl	%ebp, %edx
	callq	"arms::core_in"
	movl	$336, %edx                      # imm = 0x150
	movq	24(%rsp), %rdi                  # 8-byte Reload
	movq	%r14, %rsi
	callq	memcpy@PLT
	addq	$1608, %rsp                     # imm = 0x648
	popq	%rbx
	popq	%r12
	popq	%r13
	popq	%r14
	popq	%r15
	popq	%rbp
	retq
.Lfunc_end23:
	.size	"stock::core_at", .Lfunc_end23-"stock::core_at"
                                        # -- End function
	.section	".text.arms::core_in","ax",@progbits
	.p2align	4                               # -- Begin function arms::core_in
	.type	"arms::core_in",@function
"arms::core_in":                        # @"arms::core_in"
# %bb.0:                                # %start
	pushq	%rbp
	pushq	%r15
	pushq	%r14
	pushq	%r13
	pushq	%r12
	pushq	%rbx
	subq	$664, %rsp                      # imm = 0x298
	movl	%edx, %r12d
	movq	%rdi, %rbx
	xorps	%xmm0, %xmm0
	movaps	%xmm0, 544(%rsp)
	movaps	%xmm0, 528(%rsp)
	movaps	%xmm0, 512(%rsp)
	movaps	%xmm0, 496(%rsp)
	movl	%edx, %r15d
	movl	%edx, %edi
	movzbl	%r12b, %ecx
	leal	-65(%r12), %eax
	movl	%eax, 16(%rsp)                  # 4-byte Spill
                                        # kill: def $r12d killed $r12d killed $r12 def $r12
	shrl	$8, %r12d
	shrl	$16, %r15d
	shrl	$24, %edi
	movl	4(%rsi), %eax
	movq	%rax, 656(%rsp)                 # 8-byte Spill
	movl	8(%rsi), %eax
	movq	%rax, 648(%rsp)                 # 8-byte Spill
	movzbl	2(%rsi), %eax
	movb	%al, 23(%rsp)                   # 1-byte Spill
	movl	12(%rsi), %eax
	movq	%rax, 640(%rsp)                 # 8-byte Spill
	movzbl	3(%rsi), %eax
	movq	%rax, 632(%rsp)                 # 8-byte Spill
	movaps	%xmm0, 480(%rsp)
	movaps	%xmm0, 464(%rsp)
	movaps	%xmm0, 448(%rsp)
	movaps	%xmm0, 432(%rsp)
	movaps	%xmm0, 368(%rsp)
	movaps	%xmm0, 384(%rsp)
	movaps	%xmm0, 400(%rsp)
	movaps	%xmm0, 416(%rsp)
	leal	-65(%r12), %r13d
	leal	-65(%r15), %eax
	movl	%eax, 12(%rsp)                  # 4-byte Spill
	movaps	%xmm0, 128(%rsp)
	movaps	%xmm0, 144(%rsp)
	movaps	%xmm0, 160(%rsp)
	movaps	%xmm0, 176(%rsp)
	movaps	%xmm0, 192(%rsp)
	movaps	%xmm0, 208(%rsp)
	movaps	%xmm0, 224(%rsp)
	movaps	%xmm0, 240(%rsp)
	movq	%rdi, 112(%rsp)                 # 8-byte Spill
	leal	-65(%rdi), %ebp
	leaq	128(%rsp), %rdi
	movl	$528, %edx                      # imm = 0x210
	movq	%rsi, %r14
	movq	%rcx, 32(%rsp)                  # 8-byte Spill
	callq	"summary::seen"
	movq	%r15, 264(%rsp)                 # 8-byte Spill
	movzbl	%r15b, %eax
	movq	%rax, 24(%rsp)                  # 8-byte Spill
	movl	16(%rsp), %eax                  # 4-byte Reload
	movaps	192(%rsp), %xmm0
	movaps	208(%rsp), %xmm1
	movaps	224(%rsp), %xmm2
	movaps	240(%rsp), %xmm3
	movaps	%xmm3, 96(%rsp)
	movaps	%xmm2, 80(%rsp)
	movaps	%xmm1, 64(%rsp)
	movaps	%xmm0, 48(%rsp)
	cmpb	$-65, %r13b
	ja	.LBB24_27
# %bb.1:                                # %join.7.us.preheader
	movq	%r12, %rdx
	xorl	%r13d, %r13d
	movl	$0, %ecx
	cmpb	$-64, %al
	jae	.LBB24_2
# %bb.3:                                # %"sighted::steps.exit.i.i.us"
	cmpb	$-64, 12(%rsp)                  # 1-byte Folded Reload
	movl	%ebp, %r12d
	movq	%r14, %r15
	jae	.LBB24_4
.LBB24_5:                               # %"sighted::steps.exit.2.i.i.us"
	cmpb	$-64, %r12b
	movl	%ecx, 40(%rsp)                  # 4-byte Spill
	jb	.LBB24_7
.LBB24_6:                               # %join.3.i.3.i.i.us
	movq	112(%rsp), %rax                 # 8-byte Reload
	movzbl	47(%rsp,%rax), %eax
	shll	$24, %eax
	orl	%eax, %r13d
.LBB24_7:                               # %"arms::port_in.exit.us"
	movaps	128(%rsp), %xmm0
	movaps	144(%rsp), %xmm1
	movaps	160(%rsp), %xmm2
	movaps	176(%rsp), %xmm3
	movaps	%xmm3, 320(%rsp)
	movaps	%xmm2, 304(%rsp)
	movaps	%xmm1, 288(%rsp)
	movaps	%xmm0, 272(%rsp)
	movaps	%xmm0, 560(%rsp)
	movaps	%xmm1, 576(%rsp)
	movaps	%xmm2, 592(%rsp)
	movaps	%xmm3, 608(%rsp)
	movzbl	%dl, %ecx
	xorps	%xmm0, %xmm0
	movaps	%xmm0, 128(%rsp)
	movaps	%xmm0, 144(%rsp)
	movaps	%xmm0, 160(%rsp)
	movaps	%xmm0, 176(%rsp)
	movaps	%xmm0, 192(%rsp)
	movaps	%xmm0, 208(%rsp)
	movaps	%xmm0, 224(%rsp)
	movaps	%xmm0, 240(%rsp)
	leaq	128(%rsp), %rdi
	movl	$528, %edx                      # imm = 0x210
	movq	%r15, %rsi
	callq	"summary::seen"
	xorl	%r14d, %r14d
	leaq	192(%rsp), %rax
	movups	(%rax), %xmm0
	movups	16(%rax), %xmm1
	movups	32(%rax), %xmm2
	movups	48(%rax), %xmm3
	movaps	%xmm3, 96(%rsp)
	movaps	%xmm2, 80(%rsp)
	movaps	%xmm1, 64(%rsp)
	movaps	%xmm0, 48(%rsp)
	movl	$0, %ecx
	cmpb	$-64, 16(%rsp)                  # 1-byte Folded Reload
	jae	.LBB24_8
# %bb.9:                                # %"sighted::steps.exit.i.i.us.1"
	cmpb	$-64, 12(%rsp)                  # 1-byte Folded Reload
	jae	.LBB24_10
.LBB24_11:                              # %"sighted::steps.exit.2.i.i.us.1"
	cmpb	$-64, %r12b
	movl	%ecx, 124(%rsp)                 # 4-byte Spill
	jb	.LBB24_13
.LBB24_12:                              # %join.3.i.3.i.i.us.1
	movq	112(%rsp), %rax                 # 8-byte Reload
	movzbl	47(%rsp,%rax), %eax
	shll	$24, %eax
	orl	%eax, %r14d
.LBB24_13:                              # %"arms::port_in.exit.us.1"
	movaps	128(%rsp), %xmm0
	movaps	144(%rsp), %xmm1
	movaps	160(%rsp), %xmm2
	movaps	176(%rsp), %xmm3
	movaps	%xmm3, 320(%rsp)
	movaps	%xmm2, 304(%rsp)
	movaps	%xmm1, 288(%rsp)
	movaps	%xmm0, 272(%rsp)
	movaps	%xmm0, 496(%rsp)
	movaps	%xmm1, 512(%rsp)
	movaps	%xmm2, 528(%rsp)
	movaps	%xmm3, 544(%rsp)
	movzbl	264(%rsp), %ecx                 # 1-byte Folded Reload
	xorps	%xmm0, %xmm0
	movaps	%xmm0, 128(%rsp)
	movaps	%xmm0, 144(%rsp)
	movaps	%xmm0, 160(%rsp)
	movaps	%xmm0, 176(%rsp)
	movaps	%xmm0, 192(%rsp)
	movaps	%xmm0, 208(%rsp)
	movaps	%xmm0, 224(%rsp)
	movaps	%xmm0, 240(%rsp)
	leaq	128(%rsp), %rdi
	movl	$528, %edx                      # imm = 0x210
	movq	%r15, %rsi
	callq	"summary::seen"
	xorl	%ebp, %ebp
	leaq	192(%rsp), %rax
	movups	(%rax), %xmm0
	movups	16(%rax), %xmm1
	movups	32(%rax), %xmm2
	movups	48(%rax), %xmm3
	movaps	%xmm3, 96(%rsp)
	movaps	%xmm2, 80(%rsp)
	movaps	%xmm1, 64(%rsp)
	movaps	%xmm0, 48(%rsp)
	movl	$0, %ecx
	cmpb	$-64, 16(%rsp)                  # 1-byte Folded Reload
	jae	.LBB24_14
# %bb.15:                               # %"sighted::steps.exit.i.i.us.2"
	cmpb	$-64, 12(%rsp)                  # 1-byte Folded Reload
	jae	.LBB24_16
.LBB24_17:                              # %"sighted::steps.exit.2.i.i.us.2"
	movl	%ecx, 264(%rsp)                 # 4-byte Spill
	cmpb	$-64, %r12b
	jae	.LBB24_19
.LBB24_18:
	movq	112(%rsp), %rcx                 # 8-byte Reload
	jmp	.LBB24_20
.LBB24_27:                              # %loop.4.preheader.split
	movzbl	%r12b, %eax
	movq	%rax, 40(%rsp)                  # 8-byte Spill
	cmpb	$-64, %bpl
	movq	%r12, %rdx
	jae	.LBB24_28
# %bb.45:                               # %join.7.us2.preheader
	xorl	%eax, %eax
	cmpb	$-64, 16(%rsp)                  # 1-byte Folded Reload
	movq	112(%rsp), %r12                 # 8-byte Reload
	movq	%r14, %r15
	jb	.LBB24_47
# %bb.46:                               # %join.3.i.i.i.us7
	movq	32(%rsp), %rax                  # 8-byte Reload
	movzbl	47(%rsp,%rax), %eax
.LBB24_47:                              # %"sighted::steps.exit.i.i.us9"
	movq	40(%rsp), %rcx                  # 8-byte Reload
	movzbl	47(%rsp,%rcx), %r13d
	shll	$8, %r13d
	orl	%eax, %r13d
	cmpb	$-64, 12(%rsp)                  # 1-byte Folded Reload
	jb	.LBB24_49
# %bb.48:                               # %join.3.i.2.i.i.us11
	movq	24(%rsp), %rax                  # 8-byte Reload
	movzbl	47(%rsp,%rax), %eax
	shll	$16, %eax
	orl	%eax, %r13d
.LBB24_49:                              # %"sighted::steps.exit.2.i.i.us13"
	movaps	128(%rsp), %xmm0
	movaps	144(%rsp), %xmm1
	movaps	160(%rsp), %xmm2
	movaps	176(%rsp), %xmm3
	movaps	%xmm3, 320(%rsp)
	movaps	%xmm2, 304(%rsp)
	movaps	%xmm1, 288(%rsp)
	movaps	%xmm0, 272(%rsp)
	movaps	%xmm0, 560(%rsp)
	movaps	%xmm1, 576(%rsp)
	movaps	%xmm2, 592(%rsp)
	movaps	%xmm3, 608(%rsp)
	movzbl	%dl, %ecx
	xorps	%xmm0, %xmm0
	movaps	%xmm0, 128(%rsp)
	movaps	%xmm0, 144(%rsp)
	movaps	%xmm0, 160(%rsp)
	movaps	%xmm0, 176(%rsp)
	movaps	%xmm0, 192(%rsp)
	movaps	%xmm0, 208(%rsp)
	movaps	%xmm0, 224(%rsp)
	movaps	%xmm0, 240(%rsp)
	leaq	128(%rsp), %rdi
	movl	$528, %edx                      # imm = 0x210
	movq	%r15, %rsi
	callq	"summary::seen"
	xorl	%eax, %eax
	leaq	192(%rsp), %rcx
	movups	(%rcx), %xmm0
	movups	16(%rcx), %xmm1
	movups	32(%rcx), %xmm2
	movups	48(%rcx), %xmm3
	movaps	%xmm3, 96(%rsp)
	movaps	%xmm2, 80(%rsp)
	movaps	%xmm1, 64(%rsp)
	movaps	%xmm0, 48(%rsp)
	cmpb	$-64, 16(%rsp)                  # 1-byte Folded Reload
	jb	.LBB24_51
# %bb.50:                               # %join.3.i.i.i.us7.1
	movq	32(%rsp), %rax                  # 8-byte Reload
	movzbl	47(%rsp,%rax), %eax
.LBB24_51:                              # %"sighted::steps.exit.i.i.us9.1"
	movq	40(%rsp), %rcx                  # 8-byte Reload
	movzbl	47(%rsp,%rcx), %r14d
	shll	$8, %r14d
	orl	%eax, %r14d
	cmpb	$-64, 12(%rsp)                  # 1-byte Folded Reload
	jb	.LBB24_53
# %bb.52:                               # %join.3.i.2.i.i.us11.1
	movq	24(%rsp), %rax                  # 8-byte Reload
	movzbl	47(%rsp,%rax), %eax
	shll	$16, %eax
	orl	%eax, %r14d
.LBB24_53:                              # %"sighted::steps.exit.2.i.i.us13.1"
	movaps	128(%rsp), %xmm0
	movaps	144(%rsp), %xmm1
	movaps	160(%rsp), %xmm2
	movaps	176(%rsp), %xmm3
	movaps	%xmm3, 320(%rsp)
	movaps	%xmm2, 304(%rsp)
	movaps	%xmm1, 288(%rsp)
	movaps	%xmm0, 272(%rsp)
	movaps	%xmm0, 496(%rsp)
	movaps	%xmm1, 512(%rsp)
	movaps	%xmm2, 528(%rsp)
	movaps	%xmm3, 544(%rsp)
	movzbl	264(%rsp), %ecx                 # 1-byte Folded Reload
	xorps	%xmm0, %xmm0
	movaps	%xmm0, 128(%rsp)
	movaps	%xmm0, 144(%rsp)
	movaps	%xmm0, 160(%rsp)
	movaps	%xmm0, 176(%rsp)
	movaps	%xmm0, 192(%rsp)
	movaps	%xmm0, 208(%rsp)
	movaps	%xmm0, 224(%rsp)
	movaps	%xmm0, 240(%rsp)
	leaq	128(%rsp), %rdi
	movl	$528, %edx                      # imm = 0x210
	movq	%r15, %rsi
	callq	"summary::seen"
	xorl	%eax, %eax
	leaq	192(%rsp), %rcx
	movups	(%rcx), %xmm0
	movups	16(%rcx), %xmm1
	movups	32(%rcx), %xmm2
	movups	48(%rcx), %xmm3
	movaps	%xmm3, 96(%rsp)
	movaps	%xmm2, 80(%rsp)
	movaps	%xmm1, 64(%rsp)
	movaps	%xmm0, 48(%rsp)
	cmpb	$-64, 16(%rsp)                  # 1-byte Folded Reload
	jb	.LBB24_55
# %bb.54:                               # %join.3.i.i.i.us7.2
	movq	32(%rsp), %rax                  # 8-byte Reload
	movzbl	47(%rsp,%rax), %eax
.LBB24_55:                              # %"sighted::steps.exit.i.i.us9.2"
	movq	40(%rsp), %rcx                  # 8-byte Reload
	movzbl	47(%rsp,%rcx), %ebp
	shll	$8, %ebp
	orl	%eax, %ebp
	cmpb	$-64, 12(%rsp)                  # 1-byte Folded Reload
	jb	.LBB24_57
# %bb.56:                               # %join.3.i.2.i.i.us11.2
	movq	24(%rsp), %rax                  # 8-byte Reload
	movzbl	47(%rsp,%rax), %eax
	shll	$16, %eax
	orl	%eax, %ebp
.LBB24_57:                              # %"sighted::steps.exit.2.i.i.us13.2"
	movaps	128(%rsp), %xmm0
	movaps	144(%rsp), %xmm1
	movaps	160(%rsp), %xmm2
	movaps	176(%rsp), %xmm3
	movaps	%xmm3, 320(%rsp)
	movaps	%xmm2, 304(%rsp)
	movaps	%xmm1, 288(%rsp)
	movaps	%xmm0, 272(%rsp)
	movaps	%xmm0, 432(%rsp)
	movaps	%xmm1, 448(%rsp)
	movaps	%xmm2, 464(%rsp)
	movaps	%xmm3, 480(%rsp)
	movl	%r12d, %ecx
	xorps	%xmm0, %xmm0
	movaps	%xmm0, 128(%rsp)
	movaps	%xmm0, 144(%rsp)
	movaps	%xmm0, 160(%rsp)
	movaps	%xmm0, 176(%rsp)
	movaps	%xmm0, 192(%rsp)
	movaps	%xmm0, 208(%rsp)
	movaps	%xmm0, 224(%rsp)
	movaps	%xmm0, 240(%rsp)
	leaq	128(%rsp), %rdi
	movl	$528, %edx                      # imm = 0x210
	movq	%r15, %rsi
	callq	"summary::seen"
	xorl	%ecx, %ecx
	leaq	192(%rsp), %rax
	movups	(%rax), %xmm0
	movups	16(%rax), %xmm1
	movups	32(%rax), %xmm2
	movups	48(%rax), %xmm3
	movaps	%xmm3, 96(%rsp)
	movaps	%xmm2, 80(%rsp)
	movaps	%xmm1, 64(%rsp)
	movaps	%xmm0, 48(%rsp)
	cmpb	$-64, 16(%rsp)                  # 1-byte Folded Reload
	jb	.LBB24_59
# %bb.58:                               # %join.3.i.i.i.us7.3
	movq	32(%rsp), %rax                  # 8-byte Reload
	movzbl	47(%rsp,%rax), %ecx
.LBB24_59:                              # %"sighted::steps.exit.i.i.us9.3"
	movq	40(%rsp), %rax                  # 8-byte Reload
	movzbl	47(%rsp,%rax), %eax
	shll	$8, %eax
	orl	%ecx, %eax
	cmpb	$-64, 12(%rsp)                  # 1-byte Folded Reload
	jb	.LBB24_61
# %bb.60:                               # %join.3.i.2.i.i.us11.3
	movq	24(%rsp), %rcx                  # 8-byte Reload
	movzbl	47(%rsp,%rcx), %ecx
	shll	$16, %ecx
	orl	%ecx, %eax
	jmp	.LBB24_61
.LBB24_2:                               # %join.3.i.i.i.us
	movq	32(%rsp), %rax                  # 8-byte Reload
	movzbl	47(%rsp,%rax), %ecx
	cmpb	$-64, 12(%rsp)                  # 1-byte Folded Reload
	movl	%ebp, %r12d
	movq	%r14, %r15
	jb	.LBB24_5
.LBB24_4:                               # %join.3.i.2.i.i.us
	movq	24(%rsp), %rax                  # 8-byte Reload
	movzbl	47(%rsp,%rax), %r13d
	shll	$16, %r13d
	cmpb	$-64, %r12b
	movl	%ecx, 40(%rsp)                  # 4-byte Spill
	jae	.LBB24_6
	jmp	.LBB24_7
.LBB24_8:                               # %join.3.i.i.i.us.1
	movq	32(%rsp), %rax                  # 8-byte Reload
	movzbl	47(%rsp,%rax), %ecx
	cmpb	$-64, 12(%rsp)                  # 1-byte Folded Reload
	jb	.LBB24_11
.LBB24_10:                              # %join.3.i.2.i.i.us.1
	movq	24(%rsp), %rax                  # 8-byte Reload
	movzbl	47(%rsp,%rax), %r14d
	shll	$16, %r14d
	cmpb	$-64, %r12b
	movl	%ecx, 124(%rsp)                 # 4-byte Spill
	jae	.LBB24_12
	jmp	.LBB24_13
.LBB24_14:                              # %join.3.i.i.i.us.2
	movq	32(%rsp), %rax                  # 8-byte Reload
	movzbl	47(%rsp,%rax), %ecx
	cmpb	$-64, 12(%rsp)                  # 1-byte Folded Reload
	jb	.LBB24_17
.LBB24_16:                              # %join.3.i.2.i.i.us.2
	movq	24(%rsp), %rax                  # 8-byte Reload
	movzbl	47(%rsp,%rax), %ebp
	shll	$16, %ebp
	movl	%ecx, 264(%rsp)                 # 4-byte Spill
	cmpb	$-64, %r12b
	jb	.LBB24_18
.LBB24_19:                              # %join.3.i.3.i.i.us.2
	movq	112(%rsp), %rcx                 # 8-byte Reload
	movzbl	47(%rsp,%rcx), %eax
	shll	$24, %eax
	orl	%eax, %ebp
.LBB24_20:                              # %"arms::port_in.exit.us.2"
	movaps	128(%rsp), %xmm0
	movaps	144(%rsp), %xmm1
	movaps	160(%rsp), %xmm2
	movaps	176(%rsp), %xmm3
	movaps	%xmm3, 320(%rsp)
	movaps	%xmm2, 304(%rsp)
	movaps	%xmm1, 288(%rsp)
	movaps	%xmm0, 272(%rsp)
	movaps	%xmm0, 432(%rsp)
	movaps	%xmm1, 448(%rsp)
	movaps	%xmm2, 464(%rsp)
	movaps	%xmm3, 480(%rsp)
	movl	%ecx, %ecx
	xorps	%xmm0, %xmm0
	movaps	%xmm0, 128(%rsp)
	movaps	%xmm0, 144(%rsp)
	movaps	%xmm0, 160(%rsp)
	movaps	%xmm0, 176(%rsp)
	movaps	%xmm0, 192(%rsp)
	movaps	%xmm0, 208(%rsp)
	movaps	%xmm0, 224(%rsp)
	movaps	%xmm0, 240(%rsp)
	leaq	128(%rsp), %rdi
	movl	$528, %edx                      # imm = 0x210
	movq	%r15, %rsi
	callq	"summary::seen"
	xorl	%eax, %eax
	leaq	192(%rsp), %rcx
	movups	(%rcx), %xmm0
	movups	16(%rcx), %xmm1
	movups	32(%rcx), %xmm2
	movups	48(%rcx), %xmm3
	movaps	%xmm3, 96(%rsp)
	movaps	%xmm2, 80(%rsp)
	movaps	%xmm1, 64(%rsp)
	movaps	%xmm0, 48(%rsp)
	movl	$0, %ecx
	cmpb	$-64, 16(%rsp)                  # 1-byte Folded Reload
	jae	.LBB24_21
# %bb.22:                               # %"sighted::steps.exit.i.i.us.3"
	cmpb	$-64, 12(%rsp)                  # 1-byte Folded Reload
	jae	.LBB24_23
.LBB24_24:                              # %"sighted::steps.exit.2.i.i.us.3"
	cmpb	$-64, %r12b
	jb	.LBB24_26
.LBB24_25:                              # %join.3.i.3.i.i.us.3
	movq	112(%rsp), %rdx                 # 8-byte Reload
	movzbl	47(%rsp,%rdx), %edx
	shll	$24, %edx
	orl	%edx, %eax
.LBB24_26:                              # %"arms::port_in.exit.us.3"
	orl	%ecx, %eax
	orl	40(%rsp), %r13d                 # 4-byte Folded Reload
	orl	124(%rsp), %r14d                # 4-byte Folded Reload
	orl	264(%rsp), %ebp                 # 4-byte Folded Reload
.LBB24_61:                              # %"sighted::steps.exit.2.i.i.us13.3"
	movaps	128(%rsp), %xmm0
	movaps	144(%rsp), %xmm1
	movaps	160(%rsp), %xmm2
	movaps	176(%rsp), %xmm3
	movaps	%xmm3, 320(%rsp)
	movaps	%xmm2, 304(%rsp)
	movaps	%xmm1, 288(%rsp)
	movaps	%xmm0, 272(%rsp)
	jmp	.LBB24_62
.LBB24_28:                              # %join.7.preheader
	xorl	%ecx, %ecx
	movl	$0, %eax
	cmpb	$-64, 16(%rsp)                  # 1-byte Folded Reload
	movq	112(%rsp), %r12                 # 8-byte Reload
	movq	%r14, %r15
	jb	.LBB24_30
# %bb.29:                               # %join.3.i.i.i
	movq	32(%rsp), %rax                  # 8-byte Reload
	movzbl	47(%rsp,%rax), %eax
.LBB24_30:                              # %"sighted::steps.exit.i.i"
	movl	%eax, 360(%rsp)                 # 4-byte Spill
	cmpb	$-64, 12(%rsp)                  # 1-byte Folded Reload
	jb	.LBB24_32
# %bb.31:                               # %join.3.i.2.i.i
	movq	24(%rsp), %rax                  # 8-byte Reload
	movzbl	47(%rsp,%rax), %ecx
	shll	$16, %ecx
.LBB24_32:                              # %"sighted::steps.exit.2.i.i"
	movl	%ecx, 364(%rsp)                 # 4-byte Spill
	movq	40(%rsp), %rax                  # 8-byte Reload
	movzbl	47(%rsp,%rax), %ebp
	movzbl	47(%rsp,%r12), %r13d
	movaps	128(%rsp), %xmm0
	movaps	144(%rsp), %xmm1
	movaps	160(%rsp), %xmm2
	movaps	176(%rsp), %xmm3
	movaps	%xmm0, 272(%rsp)
	movaps	%xmm1, 288(%rsp)
	movaps	%xmm2, 304(%rsp)
	movaps	%xmm3, 320(%rsp)
	movaps	%xmm0, 560(%rsp)
	movaps	%xmm1, 576(%rsp)
	movaps	%xmm2, 592(%rsp)
	movaps	%xmm3, 608(%rsp)
	movzbl	%dl, %ecx
	xorps	%xmm0, %xmm0
	movaps	%xmm0, 128(%rsp)
	movaps	%xmm0, 144(%rsp)
	movaps	%xmm0, 160(%rsp)
	movaps	%xmm0, 176(%rsp)
	movaps	%xmm0, 192(%rsp)
	movaps	%xmm0, 208(%rsp)
	movaps	%xmm0, 224(%rsp)
	movaps	%xmm0, 240(%rsp)
	leaq	128(%rsp), %rdi
	movl	$528, %edx                      # imm = 0x210
	movq	%r15, %rsi
	callq	"summary::seen"
	xorl	%ecx, %ecx
	leaq	192(%rsp), %rax
	movups	(%rax), %xmm0
	movups	16(%rax), %xmm1
	movups	32(%rax), %xmm2
	movups	48(%rax), %xmm3
	movaps	%xmm3, 96(%rsp)
	movaps	%xmm2, 80(%rsp)
	movaps	%xmm1, 64(%rsp)
	movaps	%xmm0, 48(%rsp)
	movl	$0, %eax
	cmpb	$-64, 16(%rsp)                  # 1-byte Folded Reload
	jb	.LBB24_34
# %bb.33:                               # %join.3.i.i.i.1
	movq	32(%rsp), %rax                  # 8-byte Reload
	movzbl	47(%rsp,%rax), %eax
.LBB24_34:                              # %"sighted::steps.exit.i.i.1"
	movl	%eax, 352(%rsp)                 # 4-byte Spill
	cmpb	$-64, 12(%rsp)                  # 1-byte Folded Reload
	jb	.LBB24_36
# %bb.35:                               # %join.3.i.2.i.i.1
	movq	24(%rsp), %rax                  # 8-byte Reload
	movzbl	47(%rsp,%rax), %ecx
	shll	$16, %ecx
.LBB24_36:                              # %"sighted::steps.exit.2.i.i.1"
	movl	%ecx, 356(%rsp)                 # 4-byte Spill
	movq	40(%rsp), %rax                  # 8-byte Reload
	movzbl	47(%rsp,%rax), %eax
	movl	%eax, 124(%rsp)                 # 4-byte Spill
	movzbl	47(%rsp,%r12), %r14d
	movaps	128(%rsp), %xmm0
	movaps	144(%rsp), %xmm1
	movaps	160(%rsp), %xmm2
	movaps	176(%rsp), %xmm3
	movaps	%xmm0, 272(%rsp)
	movaps	%xmm1, 288(%rsp)
	movaps	%xmm2, 304(%rsp)
	movaps	%xmm3, 320(%rsp)
	movaps	%xmm0, 496(%rsp)
	movaps	%xmm1, 512(%rsp)
	movaps	%xmm2, 528(%rsp)
	movaps	%xmm3, 544(%rsp)
	movzbl	264(%rsp), %ecx                 # 1-byte Folded Reload
	xorps	%xmm0, %xmm0
	movaps	%xmm0, 128(%rsp)
	movaps	%xmm0, 144(%rsp)
	movaps	%xmm0, 160(%rsp)
	movaps	%xmm0, 176(%rsp)
	movaps	%xmm0, 192(%rsp)
	movaps	%xmm0, 208(%rsp)
	movaps	%xmm0, 224(%rsp)
	movaps	%xmm0, 240(%rsp)
	leaq	128(%rsp), %rdi
	movl	$528, %edx                      # imm = 0x210
	movq	%r15, %rsi
	callq	"summary::seen"
	xorl	%ecx, %ecx
	leaq	192(%rsp), %rax
	movups	(%rax), %xmm0
	movups	16(%rax), %xmm1
	movups	32(%rax), %xmm2
	movups	48(%rax), %xmm3
	movaps	%xmm3, 96(%rsp)
	movaps	%xmm2, 80(%rsp)
	movaps	%xmm1, 64(%rsp)
	movaps	%xmm0, 48(%rsp)
	movl	$0, %eax
	cmpb	$-64, 16(%rsp)                  # 1-byte Folded Reload
	jb	.LBB24_38
# %bb.37:                               # %join.3.i.i.i.2
	movq	32(%rsp), %rax                  # 8-byte Reload
	movzbl	47(%rsp,%rax), %eax
.LBB24_38:                              # %"sighted::steps.exit.i.i.2"
	movl	%eax, 348(%rsp)                 # 4-byte Spill
	movq	%r15, %rsi
	movq	40(%rsp), %rax                  # 8-byte Reload
	movzbl	47(%rsp,%rax), %r12d
	cmpb	$-64, 12(%rsp)                  # 1-byte Folded Reload
	movl	%ebp, %r15d
	jb	.LBB24_40
# %bb.39:                               # %join.3.i.2.i.i.2
	movq	24(%rsp), %rax                  # 8-byte Reload
	movzbl	47(%rsp,%rax), %ecx
	shll	$16, %ecx
.LBB24_40:                              # %"sighted::steps.exit.2.i.i.2"
	movl	%ecx, 264(%rsp)                 # 4-byte Spill
	shll	$8, %r15d
	shll	$24, %r13d
	shll	$8, 124(%rsp)                   # 4-byte Folded Spill
	shll	$24, %r14d
	shll	$8, %r12d
	movq	112(%rsp), %rax                 # 8-byte Reload
	movzbl	47(%rsp,%rax), %ebp
	shll	$24, %ebp
	movaps	128(%rsp), %xmm0
	movaps	144(%rsp), %xmm1
	movaps	160(%rsp), %xmm2
	movaps	176(%rsp), %xmm3
	movaps	%xmm0, 272(%rsp)
	movaps	%xmm1, 288(%rsp)
	movaps	%xmm2, 304(%rsp)
	movaps	%xmm3, 320(%rsp)
	movaps	%xmm0, 432(%rsp)
	movaps	%xmm1, 448(%rsp)
	movaps	%xmm2, 464(%rsp)
	movaps	%xmm3, 480(%rsp)
	movl	%eax, %ecx
	xorps	%xmm0, %xmm0
	movaps	%xmm0, 128(%rsp)
	movaps	%xmm0, 144(%rsp)
	movaps	%xmm0, 160(%rsp)
	movaps	%xmm0, 176(%rsp)
	movaps	%xmm0, 192(%rsp)
	movaps	%xmm0, 208(%rsp)
	movaps	%xmm0, 224(%rsp)
	movaps	%xmm0, 240(%rsp)
	leaq	128(%rsp), %rdi
	movl	$528, %edx                      # imm = 0x210
	callq	"summary::seen"
	xorl	%ecx, %ecx
	leaq	192(%rsp), %rax
	movups	(%rax), %xmm0
	movups	16(%rax), %xmm1
	movups	32(%rax), %xmm2
	movups	48(%rax), %xmm3
	movaps	%xmm3, 96(%rsp)
	movaps	%xmm2, 80(%rsp)
	movaps	%xmm1, 64(%rsp)
	movaps	%xmm0, 48(%rsp)
	movl	$0, %eax
	cmpb	$-64, 16(%rsp)                  # 1-byte Folded Reload
	jb	.LBB24_42
# %bb.41:                               # %join.3.i.i.i.3
	movq	32(%rsp), %rax                  # 8-byte Reload
	movzbl	47(%rsp,%rax), %eax
.LBB24_42:                              # %"sighted::steps.exit.i.i.3"
	addl	360(%rsp), %r15d                # 4-byte Folded Reload
	addl	364(%rsp), %r13d                # 4-byte Folded Reload
	movl	124(%rsp), %esi                 # 4-byte Reload
	addl	352(%rsp), %esi                 # 4-byte Folded Reload
	addl	356(%rsp), %r14d                # 4-byte Folded Reload
	addl	348(%rsp), %r12d                # 4-byte Folded Reload
	addl	264(%rsp), %ebp                 # 4-byte Folded Reload
	movq	40(%rsp), %rdx                  # 8-byte Reload
	movzbl	47(%rsp,%rdx), %edx
	shll	$8, %edx
	orl	%eax, %edx
	cmpb	$-64, 12(%rsp)                  # 1-byte Folded Reload
	jb	.LBB24_44
# %bb.43:                               # %join.3.i.2.i.i.3
	movq	24(%rsp), %rax                  # 8-byte Reload
	movzbl	47(%rsp,%rax), %ecx
	shll	$16, %ecx
.LBB24_44:                              # %"sighted::steps.exit.2.i.i.3"
	orl	%r15d, %r13d
	orl	%esi, %r14d
	orl	%r12d, %ebp
	movq	112(%rsp), %rax                 # 8-byte Reload
	movzbl	47(%rsp,%rax), %eax
	shll	$24, %eax
	orl	%ecx, %eax
	orl	%edx, %eax
	movaps	128(%rsp), %xmm0
	movaps	144(%rsp), %xmm1
	movaps	160(%rsp), %xmm2
	movaps	176(%rsp), %xmm3
	movaps	%xmm0, 272(%rsp)
	movaps	%xmm1, 288(%rsp)
	movaps	%xmm2, 304(%rsp)
	movaps	%xmm3, 320(%rsp)
.LBB24_62:                              # %after.3
	movaps	%xmm0, 368(%rsp)
	movaps	%xmm1, 384(%rsp)
	movaps	%xmm2, 400(%rsp)
	movaps	%xmm3, 416(%rsp)
	movzbl	23(%rsp), %ecx                  # 1-byte Folded Reload
	cmpb	$64, %cl
	movl	$64, %edx
	cmovbl	%ecx, %edx
	movzbl	%dl, %ecx
	movq	656(%rsp), %rsi                 # 8-byte Reload
	movq	648(%rsp), %rdi                 # 8-byte Reload
	leaq	(%rdi,%rsi), %rdx
	movq	%rcx, (%rbx)
	movq	%rdx, 8(%rbx)
	movq	%rsi, 16(%rbx)
	movq	%rdi, 24(%rbx)
	movq	640(%rsp), %rcx                 # 8-byte Reload
	movq	%rcx, 32(%rbx)
	movq	632(%rsp), %rcx                 # 8-byte Reload
	movq	%rcx, 40(%rbx)
	movaps	560(%rsp), %xmm0
	movaps	576(%rsp), %xmm1
	movaps	592(%rsp), %xmm2
	movaps	608(%rsp), %xmm3
	movups	%xmm0, 48(%rbx)
	movups	%xmm1, 64(%rbx)
	movups	%xmm2, 80(%rbx)
	movups	%xmm3, 96(%rbx)
	movl	%r13d, 112(%rbx)
	movl	$0, 116(%rbx)
	movaps	496(%rsp), %xmm0
	movaps	512(%rsp), %xmm1
	movaps	528(%rsp), %xmm2
	movaps	544(%rsp), %xmm3
	movups	%xmm0, 120(%rbx)
	movups	%xmm1, 136(%rbx)
	movups	%xmm2, 152(%rbx)
	movups	%xmm3, 168(%rbx)
	movl	%r14d, 184(%rbx)
	movl	$0, 188(%rbx)
	movaps	432(%rsp), %xmm0
	movaps	448(%rsp), %xmm1
	movaps	464(%rsp), %xmm2
	movaps	480(%rsp), %xmm3
	movups	%xmm3, 240(%rbx)
	movups	%xmm2, 224(%rbx)
	movups	%xmm1, 208(%rbx)
	movups	%xmm0, 192(%rbx)
	movl	%ebp, 256(%rbx)
	movl	$0, 260(%rbx)
	movaps	368(%rsp), %xmm0
	movaps	384(%rsp), %xmm1
	movaps	400(%rsp), %xmm2
	movaps	416(%rsp), %xmm3
	movups	%xmm3, 312(%rbx)
	movups	%xmm2, 296(%rbx)
	movups	%xmm1, 280(%rbx)
	movups	%xmm0, 264(%rbx)
	movl	%eax, 328(%rbx)
	movl	$0, 332(%rbx)
	addq	$664, %rsp                      # imm = 0x298
	popq	%rbx
	popq	%r12
	popq	%r13
	popq	%r14
	popq	%r15
	popq	%rbp
	retq
.LBB24_21:                              # %join.3.i.i.i.us.3
	movq	32(%rsp), %rcx                  # 8-byte Reload
	movzbl	47(%rsp,%rcx), %ecx
	cmpb	$-64, 12(%rsp)                  # 1-byte Folded Reload
	jb	.LBB24_24
.LBB24_23:                              # %join.3.i.2.i.i.us.3
	movq	24(%rsp), %rax                  # 8-byte Reload
	movzbl	47(%rsp,%rax), %eax
	shll	$16, %eax
	cmpb	$-64, %r12b
	jae	.LBB24_25
	jmp	.LBB24_26
.Lfunc_end24:
	.size	"arms::core_in", .Lfunc_end24-"arms::core_in"
                                        # -- End function
	.section	".text.stock::all_arms","ax",@progbits
	.p2align	4                               # -- Begin function stock::all_arms
	.type	"stock::all_arms",@function
"stock::all_arms":                      # @"stock::all_arms"
# %bb.0:                                # %start
	pushq	%rbp
	pushq	%r15
	pushq	%r14
	pushq	%r13
	pushq	%r12
	pushq	%rbx
	subq	$3072, %rsp                     # imm = 0xC00
	movq	$0, (%rsp)
	subq	$1432, %rsp                     # imm = 0x598
	movq	%r9, 64(%rsp)                   # 8-byte Spill
	movq	%r8, %r15
	movq	%rdx, %r12
	movq	%rsi, %r13
	movq	%rdi, 56(%rsp)                  # 8-byte Spill
	movq	4568(%rsp), %rax
	movups	112(%rcx), %xmm0
	movaps	%xmm0, 368(%rsp)
	movups	96(%rcx), %xmm0
	movaps	%xmm0, 352(%rsp)
	movups	80(%rcx), %xmm0
	movaps	%xmm0, 336(%rsp)
	movups	64(%rcx), %xmm0
	movaps	%xmm0, 320(%rsp)
	movups	(%rcx), %xmm0
	movups	16(%rcx), %xmm1
	movups	32(%rcx), %xmm2
	movups	48(%rcx), %xmm3
	movaps	%xmm3, 304(%rsp)
	movaps	%xmm2, 288(%rsp)
	movaps	%xmm1, 272(%rsp)
	movaps	%xmm0, 256(%rsp)
	movups	(%rax), %xmm0
	movups	16(%rax), %xmm1
	movups	32(%rax), %xmm2
	movups	48(%rax), %xmm3
	movaps	%xmm0, 80(%rsp)
	movaps	%xmm1, 96(%rsp)
	movaps	%xmm2, 112(%rsp)
	movaps	%xmm3, 128(%rsp)
	leaq	920(%rsp), %rdi
	xorl	%ebx, %ebx
	movl	$3584, %edx                     # imm = 0xE00
	xorl	%esi, %esi
	callq	memset@PLT
	leaq	392(%rsp), %rdi
	movl	$528, %edx                      # imm = 0x210
	xorl	%esi, %esi
	callq	memset@PLT
	movq	$65536, 72(%rsp)                # imm = 0x10000
	leaq	1016(%rsp), %rbp
	xorl	%r14d, %r14d
	.p2align	4
.LBB25_1:                               # %join.9
                                        # =>This Inner Loop Header: Depth=1
	movl	%ebx, %eax
	andl	$48, %eax
	movq	88(%rsp,%rax), %rcx
	movl	%r14d, %edx
	andl	$7, %edx
	movzbl	81(%rsp,%rax), %eax
	leaq	392(%rsp), %rsi
	movq	%rsi, 40(%rsp)
	leaq	72(%rsp), %rsi
	movq	%rsi, 32(%rsp)
	movq	%rdx, 24(%rsp)
	movq	%rcx, 16(%rsp)
	movl	%eax, 8(%rsp)
	movq	4560(%rsp), %rax
	movq	%rax, (%rsp)
	leaq	144(%rsp), %rdi
	leaq	256(%rsp), %rcx
	movq	%r13, %rsi
	movq	%r12, %rdx
	movq	%r15, %r8
	movq	64(%rsp), %r9                   # 8-byte Reload
	callq	"stock::held_arm"
	movaps	144(%rsp), %xmm0
	movups	%xmm0, -96(%rbp)
	movaps	160(%rsp), %xmm0
	movups	%xmm0, -80(%rbp)
	movaps	176(%rsp), %xmm0
	movups	%xmm0, -64(%rbp)
	movaps	192(%rsp), %xmm0
	movups	%xmm0, -48(%rbp)
	movaps	208(%rsp), %xmm0
	movups	%xmm0, -32(%rbp)
	movaps	224(%rsp), %xmm0
	movups	%xmm0, -16(%rbp)
	movaps	240(%rsp), %xmm0
	movups	%xmm0, (%rbp)
	incq	%r14
	addq	$112, %rbp
	addq	$2, %rbx
	cmpq	$32, %r14
	jne	.LBB25_1
# %bb.2:                                # %after.5
	leaq	920(%rsp), %rsi
	movl	$3584, %edx                     # imm = 0xE00
	movq	56(%rsp), %rdi                  # 8-byte Reload
	callq	memcpy@PLT
	addq	$4504, %rsp                     # imm = 0x1198
	popq	%rbx
	popq	%r12
	popq	%r13
	popq	%r14
	popq	%r15
	popq	%rbp
	retq
.Lfunc_end25:
	.size	"stock::all_arms", .Lfunc_end25-"stock::all_arms"
                                        # -- End function
	.section	".text.stock::held_arm","ax",@progbits
	.p2align	4                               # -- Begin function stock::held_arm
	.type	"stock::held_arm",@function
"stock::held_arm":                      # @"stock::held_arm"
# %bb.0:                                # %start
	pushq	%rbp
	pushq	%r15
	pushq	%r14
	pushq	%r13
	pushq	%r12
	pushq	%rbx
	subq	$744, %rsp                      # imm = 0x2E8
	movq	%rdi, %rbx
	movq	816(%rsp), %rdi
	movq	800(%rsp), %rbp
	cmpq	%rdi, %rbp
	jb	.LBB26_1
# %bb.3:                                # %join.3
	movq	824(%rsp), %r10
	movzbl	808(%rsp), %eax
	cmpq	%rax, %r10
	jae	.LBB26_1
# %bb.4:                                # %join.6
	movq	832(%rsp), %rax
	leaq	(%r10,%r10,2), %r15
	addq	%rdi, %r15
	cmpq	%rbp, %r15
	jae	.LBB26_5
# %bb.6:                                # %"records::byte_at.exit.i"
	movzbl	(%r9,%r15), %edi
	leaq	1(%r15), %r10
	cmpq	%rbp, %r10
	jae	.LBB26_8
# %bb.7:                                # %then.1.i6.i
	movzbl	(%r9,%r10), %r10d
	shll	$8, %r10d
	movzwl	%di, %edi
	orl	%r10d, %edi
	jmp	.LBB26_8
.LBB26_1:                               # %then.1
	xorps	%xmm0, %xmm0
	movups	%xmm0, 96(%rbx)
	movups	%xmm0, 80(%rbx)
	movups	%xmm0, 64(%rbx)
	movups	%xmm0, 48(%rbx)
	movups	%xmm0, 32(%rbx)
	movups	%xmm0, 16(%rbx)
	movups	%xmm0, (%rbx)
	jmp	.LBB26_2
.LBB26_5:
	xorl	%edi, %edi
.LBB26_8:                               # %"records::le16_at.exit"
	movups	112(%rcx), %xmm0
	movaps	%xmm0, 208(%rsp)
	movups	96(%rcx), %xmm0
	movaps	%xmm0, 192(%rsp)
	movups	80(%rcx), %xmm0
	movaps	%xmm0, 176(%rsp)
	movups	64(%rcx), %xmm0
	movaps	%xmm0, 160(%rsp)
	movdqu	(%rcx), %xmm0
	movups	16(%rcx), %xmm1
	movups	32(%rcx), %xmm2
	movups	48(%rcx), %xmm3
	movaps	%xmm3, 144(%rsp)
	movaps	%xmm2, 128(%rsp)
	movaps	%xmm1, 112(%rsp)
	movdqa	%xmm0, 96(%rsp)
	movzwl	%di, %ecx
	cmpq	%rcx, (%rax)
	je	.LBB26_16
# %bb.9:                                # %join.3.i
	movq	%rsi, %r13
	movq	%r9, 24(%rsp)                   # 8-byte Spill
	movq	%rcx, (%rax)
	leaq	16(%rsp), %rdi
	leaq	96(%rsp), %rsi
	movq	%rdx, %r12
	movq	%r8, %rdx
	callq	"assembly::find_block"
	movq	%r12, %rax
	movzwl	20(%rsp), %r14d
	movzwl	18(%rsp), %ecx
	cmpq	%rcx, %r12
	jae	.LBB26_11
# %bb.10:
	xorl	%r12d, %r12d
	jmp	.LBB26_12
.LBB26_11:                              # %join.3.i.i
	movzwl	22(%rsp), %edx
	addq	$6, %rcx
	addl	%edx, %edx
	movq	%rax, %rsi
	subq	%rcx, %rsi
	movq	%rcx, %rdi
	cmovbq	%rax, %rdi
	cmpq	%rdx, %rsi
	cmovaeq	%rdx, %rsi
	xorl	%r12d, %r12d
	cmpq	%rcx, %rax
	cmovaeq	%rsi, %r12
	movq	%rdi, %rax
.LBB26_12:                              # %"assembly::bonds_part.exit.i"
	addq	%rax, %r13
	movzwl	16(%rsp), %eax
	movw	%ax, 14(%rsp)                   # 2-byte Spill
	movl	$528, %edx                      # imm = 0x210
	movq	840(%rsp), %rdi
	xorl	%esi, %esi
	callq	memset@PLT
	pxor	%xmm0, %xmm0
	movdqa	%xmm0, 64(%rsp)
	movdqa	%xmm0, 48(%rsp)
	movdqa	%xmm0, 32(%rsp)
	movq	$0, 80(%rsp)
	leaq	32(%rsp), %rdi
	leaq	224(%rsp), %r8
	movq	%r14, %rsi
	movq	%r13, %rdx
	movq	%r12, %rcx
	callq	"reach::opened"
	cmpb	$0, 32(%rsp)
	jne	.LBB26_15
# %bb.13:                               # %arm.3.i.i.i
	movzbl	40(%rsp), %eax
	movl	72(%rsp), %ecx
	movzbl	80(%rsp), %edx
	movq	840(%rsp), %rsi
	movzwl	14(%rsp), %edi                  # 2-byte Folded Reload
	movw	%di, (%rsi)
	movb	%al, 2(%rsi)
	movb	%dl, 3(%rsi)
	movdqu	56(%rsp), %xmm0
	pshufd	$232, %xmm0, %xmm0              # xmm0 = xmm0[0,2,2,3]
	movq	%xmm0, 4(%rsi)
	movl	%ecx, 12(%rsi)
	testq	%r14, %r14
	je	.LBB26_15
# %bb.14:                               # %join.5.i.i.i.preheader.i
	movq	840(%rsp), %rax
	leaq	16(%rax), %rdi
	shll	$3, %r14d
	leaq	224(%rsp), %rsi
	movq	%r14, %rdx
	callq	memcpy@PLT
.LBB26_15:                              # %"arms::open_in.exit.i"
	movq	24(%rsp), %r9                   # 8-byte Reload
.LBB26_16:                              # %"stock::hold.exit"
	addq	$2, %r15
	cmpq	%rbp, %r15
	jae	.LBB26_17
# %bb.18:                               # %then.1.i
	movzbl	(%r9,%r15), %ecx
	jmp	.LBB26_19
.LBB26_17:
	xorl	%ecx, %ecx
.LBB26_19:                              # %"records::byte_at.exit"
	pxor	%xmm0, %xmm0
	movdqa	%xmm0, 336(%rsp)
	movdqa	%xmm0, 320(%rsp)
	movdqa	%xmm0, 304(%rsp)
	movdqa	%xmm0, 288(%rsp)
	movdqa	%xmm0, 272(%rsp)
	movdqa	%xmm0, 256(%rsp)
	movdqa	%xmm0, 240(%rsp)
	movdqa	%xmm0, 224(%rsp)
	movq	840(%rsp), %rsi
	movl	4(%rsi), %r15d
	movl	8(%rsi), %r12d
	movzbl	2(%rsi), %eax
	cmpb	$64, %al
	movl	$64, %edx
	cmovbl	%eax, %edx
	movl	12(%rsi), %r13d
	movzbl	3(%rsi), %ebp
	movzbl	%dl, %r14d
	leaq	224(%rsp), %rdi
	movl	$528, %edx                      # imm = 0x210
	callq	"summary::seen"
	movaps	224(%rsp), %xmm0
	movaps	240(%rsp), %xmm1
	movaps	256(%rsp), %xmm2
	movaps	272(%rsp), %xmm3
	movq	%r14, (%rbx)
	leaq	(%r12,%r15), %rax
	movq	%rax, 8(%rbx)
	movq	%r15, 16(%rbx)
	movq	%r12, 24(%rbx)
	movq	%r13, 32(%rbx)
	movq	%rbp, 40(%rbx)
	movups	%xmm0, 48(%rbx)
	movups	%xmm1, 64(%rbx)
	movups	%xmm2, 80(%rbx)
	movups	%xmm3, 96(%rbx)
.LBB26_2:                               # %then.1
	addq	$744, %rsp                      # imm = 0x2E8
	popq	%rbx
	popq	%r12
	popq	%r13
	popq	%r14
	popq	%r15
	popq	%rbp
	retq
.Lfunc_end26:
	.size	"stock::held_arm", .Lfunc_end26-"stock::held_arm"
                                        # -- End function
	.section	".text.library::last::staying_at","ax",@progbits
	.p2align	4                               # -- Begin function library::last::staying_at
	.type	"library::last::staying_at",@function
"library::last::staying_at":            # @"library::last::staying_at"
# %bb.0:                                # %start
	pushq	%r15
	pushq	%r14
	pushq	%r13
	pushq	%r12
	pushq	%rbx
	subq	$1296, %rsp                     # imm = 0x510
	movq	%r9, %r12
	movq	%r8, %r14
	movq	%rcx, %r13
	movq	%rdx, %r15
	movq	%rdi, %rbx
	leaq	960(%rsp), %rdi
	movl	$336, %edx                      # imm = 0x150
	callq	memcpy@PLT
	leaq	512(%rsp), %rdi
	movl	$448, %edx                      # imm = 0x1C0
	xorl	%esi, %esi
	callq	memset@PLT
	xorps	%xmm0, %xmm0
	movaps	%xmm0, 64(%rsp)
	movaps	%xmm0, 80(%rsp)
	movaps	%xmm0, 96(%rsp)
	movaps	%xmm0, 112(%rsp)
	movaps	%xmm0, 128(%rsp)
	movaps	%xmm0, 144(%rsp)
	movaps	%xmm0, 160(%rsp)
	movups	(%r13), %xmm1
	movups	16(%r13), %xmm2
	movups	32(%r13), %xmm3
	movups	48(%r13), %xmm4
	movaps	%xmm1, 384(%rsp)
	movaps	%xmm2, 400(%rsp)
	movaps	%xmm3, 416(%rsp)
	movaps	%xmm4, 432(%rsp)
	movups	(%r13), %xmm1
	movups	16(%r13), %xmm2
	movups	32(%r13), %xmm3
	movups	48(%r13), %xmm4
	movaps	%xmm4, 496(%rsp)
	movaps	%xmm3, 480(%rsp)
	movaps	%xmm2, 464(%rsp)
	movaps	%xmm1, 448(%rsp)
	movaps	%xmm0, 48(%rsp)
	movaps	%xmm0, 32(%rsp)
	testq	%r14, %r14
	je	.LBB27_16
# %bb.1:                                # %join.7.i.preheader
	leaq	-1(%r14), %rcx
	movq	%r14, %rax
	shlq	$4, %rax
	leaq	448(%rsp), %rdx
	leaq	(%rax,%rdx), %rsi
	addq	$-15, %rsi
	movq	%r12, %rax
	jmp	.LBB27_2
	.p2align	4
.LBB27_5:                               #   in Loop: Header=BB27_2 Depth=1
	xorl	%edx, %edx
	divq	%rdi
	movq	%rdx, 32(%rsp,%rcx,8)
	addq	$-16, %rsi
	addq	$-1, %rcx
	jae	.LBB27_7
.LBB27_2:                               # %join.7.i
                                        # =>This Inner Loop Header: Depth=1
	movzbl	(%rsi), %edi
	testq	%rdi, %rdi
	je	.LBB27_17
# %bb.3:                                # %ok.9.i
                                        #   in Loop: Header=BB27_2 Depth=1
	movq	%rax, %rdx
	shrq	$32, %rdx
	jne	.LBB27_5
# %bb.4:                                #   in Loop: Header=BB27_2 Depth=1
                                        # kill: def $eax killed $eax killed $rax
	xorl	%edx, %edx
	divl	%edi
                                        # kill: def $edx killed $edx def $rdx
                                        # kill: def $eax killed $eax def $rax
	movq	%rdx, 32(%rsp,%rcx,8)
	addq	$-16, %rsi
	addq	$-1, %rcx
	jb	.LBB27_2
.LBB27_7:                               # %"library::choice::choose.exit"
	movq	32(%rsp), %rsi
	movq	40(%rsp), %rdx
	movq	48(%rsp), %rcx
	movq	56(%rsp), %rax
	movq	%rsi, (%rsp)
	movq	%rdx, 8(%rsp)
	movq	%rcx, 16(%rsp)
	movq	%rax, 24(%rsp)
	xorps	%xmm0, %xmm0
	xorps	%xmm1, %xmm1
	xorps	%xmm2, %xmm2
	xorps	%xmm3, %xmm3
	xorps	%xmm4, %xmm4
	xorps	%xmm5, %xmm5
	xorps	%xmm6, %xmm6
	cmpq	$7, %rsi
	jbe	.LBB27_8
	jmp	.LBB27_9
.LBB27_16:                              # %"library::choice::choose.exit.thread"
	movaps	%xmm0, (%rsp)
	movaps	%xmm0, 16(%rsp)
	xorl	%esi, %esi
	xorl	%edx, %edx
	xorl	%ecx, %ecx
	xorl	%eax, %eax
.LBB27_8:                               # %join.3.i.i
	imulq	$112, %rsi, %rsi
	movups	(%r15,%rsi), %xmm0
	movups	16(%r15,%rsi), %xmm1
	movups	32(%r15,%rsi), %xmm2
	movups	48(%r15,%rsi), %xmm3
	movups	64(%r15,%rsi), %xmm4
	movups	80(%r15,%rsi), %xmm5
	movups	96(%r15,%rsi), %xmm6
.LBB27_9:                               # %"stock::arm_among.exit.i"
	movaps	%xmm4, 304(%rsp)                # 16-byte Spill
	movaps	%xmm3, 320(%rsp)                # 16-byte Spill
	movaps	%xmm2, 336(%rsp)                # 16-byte Spill
	movaps	%xmm1, 352(%rsp)                # 16-byte Spill
	movaps	%xmm0, 368(%rsp)                # 16-byte Spill
	xorps	%xmm13, %xmm13
	xorps	%xmm0, %xmm0
	xorps	%xmm1, %xmm1
	xorps	%xmm2, %xmm2
	xorps	%xmm3, %xmm3
	xorps	%xmm4, %xmm4
	xorps	%xmm8, %xmm8
	xorps	%xmm14, %xmm14
	cmpq	$7, %rdx
	ja	.LBB27_11
# %bb.10:                               # %join.3.i.1.i
	imulq	$112, %rdx, %rdx
	movups	896(%r15,%rdx), %xmm0
	movups	912(%r15,%rdx), %xmm1
	movups	928(%r15,%rdx), %xmm2
	movups	944(%r15,%rdx), %xmm3
	movups	960(%r15,%rdx), %xmm4
	movups	976(%r15,%rdx), %xmm8
	movups	992(%r15,%rdx), %xmm14
.LBB27_11:                              # %"stock::arm_among.exit.1.i"
	movaps	%xmm8, 176(%rsp)                # 16-byte Spill
	movaps	%xmm4, 192(%rsp)                # 16-byte Spill
	movaps	%xmm3, 208(%rsp)                # 16-byte Spill
	movaps	%xmm2, 224(%rsp)                # 16-byte Spill
	movaps	%xmm1, 240(%rsp)                # 16-byte Spill
	movaps	%xmm0, 256(%rsp)                # 16-byte Spill
	movaps	%xmm6, 272(%rsp)                # 16-byte Spill
	movaps	%xmm5, 288(%rsp)                # 16-byte Spill
	xorps	%xmm15, %xmm15
	xorps	%xmm0, %xmm0
	xorps	%xmm1, %xmm1
	xorps	%xmm2, %xmm2
	xorps	%xmm3, %xmm3
	xorps	%xmm4, %xmm4
	cmpq	$7, %rcx
	ja	.LBB27_13
# %bb.12:                               # %join.3.i.2.i
	imulq	$112, %rcx, %rcx
	movups	1792(%r15,%rcx), %xmm13
	movups	1808(%r15,%rcx), %xmm15
	movups	1824(%r15,%rcx), %xmm0
	movups	1840(%r15,%rcx), %xmm1
	movups	1856(%r15,%rcx), %xmm2
	movups	1872(%r15,%rcx), %xmm3
	movups	1888(%r15,%rcx), %xmm4
.LBB27_13:                              # %"stock::arm_among.exit.2.i"
	xorps	%xmm5, %xmm5
	xorps	%xmm6, %xmm6
	xorps	%xmm7, %xmm7
	xorps	%xmm8, %xmm8
	xorps	%xmm9, %xmm9
	xorps	%xmm10, %xmm10
	xorps	%xmm11, %xmm11
	cmpq	$7, %rax
	ja	.LBB27_15
# %bb.14:                               # %join.3.i.3.i
	imulq	$112, %rax, %rax
	movups	2688(%r15,%rax), %xmm5
	movups	2704(%r15,%rax), %xmm6
	movups	2720(%r15,%rax), %xmm7
	movups	2736(%r15,%rax), %xmm8
	movups	2752(%r15,%rax), %xmm9
	movups	2768(%r15,%rax), %xmm10
	movups	2784(%r15,%rax), %xmm11
.LBB27_15:                              # %"stock::arms_among.exit"
	movaps	368(%rsp), %xmm12               # 16-byte Reload
	movaps	%xmm12, 512(%rsp)
	movaps	352(%rsp), %xmm12               # 16-byte Reload
	movaps	%xmm12, 528(%rsp)
	movaps	336(%rsp), %xmm12               # 16-byte Reload
	movaps	%xmm12, 544(%rsp)
	movaps	320(%rsp), %xmm12               # 16-byte Reload
	movaps	%xmm12, 560(%rsp)
	movaps	304(%rsp), %xmm12               # 16-byte Reload
	movaps	%xmm12, 576(%rsp)
	movaps	288(%rsp), %xmm12               # 16-byte Reload
	movaps	%xmm12, 592(%rsp)
	movaps	272(%rsp), %xmm12               # 16-byte Reload
	movaps	%xmm12, 608(%rsp)
	movaps	256(%rsp), %xmm12               # 16-byte Reload
	movaps	%xmm12, 624(%rsp)
	movaps	240(%rsp), %xmm12               # 16-byte Reload
	movaps	%xmm12, 640(%rsp)
	movaps	224(%rsp), %xmm12               # 16-byte Reload
	movaps	%xmm12, 656(%rsp)
	movaps	208(%rsp), %xmm12               # 16-byte Reload
	movaps	%xmm12, 672(%rsp)
	movaps	192(%rsp), %xmm12               # 16-byte Reload
	movaps	%xmm12, 688(%rsp)
	movaps	176(%rsp), %xmm12               # 16-byte Reload
	movaps	%xmm12, 704(%rsp)
	movaps	%xmm14, 720(%rsp)
	movaps	%xmm13, 736(%rsp)
	movaps	%xmm15, 752(%rsp)
	movaps	%xmm0, 768(%rsp)
	movaps	%xmm1, 784(%rsp)
	movaps	%xmm2, 800(%rsp)
	movaps	%xmm3, 816(%rsp)
	movaps	%xmm4, 832(%rsp)
	movaps	%xmm5, 848(%rsp)
	movaps	%xmm6, 864(%rsp)
	movaps	%xmm7, 880(%rsp)
	movaps	%xmm8, 896(%rsp)
	movaps	%xmm9, 912(%rsp)
	movaps	%xmm10, 928(%rsp)
	movaps	%xmm11, 944(%rsp)
	leaq	-1(%r14), %r15
	leaq	64(%rsp), %rdi
	leaq	960(%rsp), %rsi
	leaq	512(%rsp), %rdx
	movq	%r15, %rcx
	callq	"arms::stem_of"
	shlq	$4, %r15
	movzbl	385(%rsp,%r15), %eax
	movq	-8(%rsp,%r14,8), %rcx
	leaq	(%rcx,%r14,8), %rdx
	addq	$-8, %rdx
	subq	%rcx, %rax
	movaps	160(%rsp), %xmm0
	movups	%xmm0, 96(%rbx)
	movaps	144(%rsp), %xmm0
	movups	%xmm0, 80(%rbx)
	movaps	128(%rsp), %xmm0
	movups	%xmm0, 64(%rbx)
	movaps	64(%rsp), %xmm0
	movaps	80(%rsp), %xmm1
	movaps	96(%rsp), %xmm2
	movaps	112(%rsp), %xmm3
	movups	%xmm3, 48(%rbx)
	movups	%xmm2, 32(%rbx)
	movups	%xmm1, 16(%rbx)
	movups	%xmm0, (%rbx)
	movq	%rdx, 112(%rbx)
	movq	%rax, 120(%rbx)
	addq	$1296, %rsp                     # imm = 0x510
	popq	%rbx
	popq	%r12
	popq	%r13
	popq	%r14
	popq	%r15
	retq
.LBB27_17:                              # %trap.8.i
	ud2
.Lfunc_end27:
	.size	"library::last::staying_at", .Lfunc_end27-"library::last::staying_at"
                                        # -- End function
	.section	".text.arms::stem_of","ax",@progbits
	.p2align	4                               # -- Begin function arms::stem_of
	.type	"arms::stem_of",@function
"arms::stem_of":                        # @"arms::stem_of"
# %bb.0:                                # %start
	pushq	%rbp
	pushq	%r15
	pushq	%r14
	pushq	%r13
	pushq	%r12
	pushq	%rbx
	subq	$1208, %rsp                     # imm = 0x4B8
	movq	%rcx, %r15
	movq	%rdx, %rcx
	movq	%rsi, %rbp
	movq	%rdi, 176(%rsp)                 # 8-byte Spill
	movq	(%rsi), %rax
	movq	%rax, 168(%rsp)                 # 8-byte Spill
	movq	8(%rsi), %rax
	movq	%rax, 24(%rsp)                  # 8-byte Spill
	movq	16(%rsi), %r14
	movq	24(%rsi), %rax
	movq	%rax, 88(%rsp)                  # 8-byte Spill
	movq	32(%rsi), %rbx
	movq	40(%rsi), %r13
	movq	48(%rsi), %rax
	movq	%rax, 72(%rsp)                  # 8-byte Spill
	movq	56(%rsi), %rax
	movq	%rax, 32(%rsp)                  # 8-byte Spill
	movq	64(%rsi), %rax
	movq	%rax, 40(%rsp)                  # 8-byte Spill
	movq	72(%rsi), %rax
	movq	%rax, 56(%rsp)                  # 8-byte Spill
	movq	80(%rsi), %rax
	movq	%rax, 80(%rsp)                  # 8-byte Spill
	movq	88(%rsi), %rax
	movq	%rax, 64(%rsp)                  # 8-byte Spill
	movq	96(%rsi), %rax
	movq	%rax, 48(%rsp)                  # 8-byte Spill
	movq	104(%rsi), %rax
	movq	%rax, 16(%rsp)                  # 8-byte Spill
	movq	112(%rsi), %rax
	movq	%rax, 296(%rsp)                 # 8-byte Spill
	leaq	760(%rsp), %rdi
	movl	$448, %edx                      # imm = 0x1C0
	movq	%rcx, %r12
	movq	%rcx, %rsi
	callq	memcpy@PLT
	cmpq	$3, %r15
	movl	$3, %eax
	cmovbq	%r15, %rax
	movq	%rax, 288(%rsp)                 # 8-byte Spill
	testq	%r15, %r15
	je	.LBB28_1
# %bb.2:                                # %join.5.lr.ph
	addq	$120, %rbp
	movq	%rbp, 280(%rsp)                 # 8-byte Spill
	movq	%r12, %rcx
	movq	168(%r12), %r9
	movq	176(%r12), %r10
	movq	184(%r12), %r11
	movq	192(%r12), %r15
	movq	200(%r12), %r12
	movq	216(%rcx), %rbp
	movq	280(%rcx), %rax
	movq	%rax, 136(%rsp)                 # 8-byte Spill
	movq	288(%rcx), %rax
	movq	%rax, 128(%rsp)                 # 8-byte Spill
	movq	296(%rcx), %rax
	movq	%rax, 120(%rsp)                 # 8-byte Spill
	movq	304(%rcx), %rax
	movq	%rax, 112(%rsp)                 # 8-byte Spill
	movq	312(%rcx), %rax
	movq	%rax, 104(%rsp)                 # 8-byte Spill
	movq	328(%rcx), %rax
	movq	%rax, 96(%rsp)                  # 8-byte Spill
	movq	104(%rcx), %r8
	movq	88(%rcx), %rdi
	movq	80(%rcx), %rsi
	movq	72(%rcx), %rdx
	movq	56(%rcx), %rax
	movq	64(%rcx), %rcx
	andl	$536870911, %eax                # imm = 0x1FFFFFFF
	movq	%rax, 240(%rsp)                 # 8-byte Spill
	andl	$536870911, %ecx                # imm = 0x1FFFFFFF
	movq	%rcx, 232(%rsp)                 # 8-byte Spill
	andl	$536870911, %edx                # imm = 0x1FFFFFFF
	movq	%rdx, 248(%rsp)                 # 8-byte Spill
	andl	$536870911, %esi                # imm = 0x1FFFFFFF
	movq	%rsi, 256(%rsp)                 # 8-byte Spill
	andl	$536870911, %edi                # imm = 0x1FFFFFFF
	movq	%rdi, 264(%rsp)                 # 8-byte Spill
	andl	$536870911, %r8d                # imm = 0x1FFFFFFF
	movq	%r8, 272(%rsp)                  # 8-byte Spill
	andl	$536870911, %r9d                # imm = 0x1FFFFFFF
	movq	%r9, 224(%rsp)                  # 8-byte Spill
	andl	$536870911, %r10d               # imm = 0x1FFFFFFF
	movq	%r10, 216(%rsp)                 # 8-byte Spill
	andl	$536870911, %r11d               # imm = 0x1FFFFFFF
	movq	%r11, 208(%rsp)                 # 8-byte Spill
	andl	$536870911, %r15d               # imm = 0x1FFFFFFF
	movq	%r15, 200(%rsp)                 # 8-byte Spill
	andl	$536870911, %r12d               # imm = 0x1FFFFFFF
	movq	%r12, 192(%rsp)                 # 8-byte Spill
	andl	$536870911, %ebp                # imm = 0x1FFFFFFF
	movq	%rbp, 184(%rsp)                 # 8-byte Spill
	movq	136(%rsp), %rax                 # 8-byte Reload
	andl	$536870911, %eax                # imm = 0x1FFFFFFF
	movq	%rax, 136(%rsp)                 # 8-byte Spill
	movq	128(%rsp), %rax                 # 8-byte Reload
	andl	$536870911, %eax                # imm = 0x1FFFFFFF
	movq	%rax, 128(%rsp)                 # 8-byte Spill
	movq	120(%rsp), %rax                 # 8-byte Reload
	andl	$536870911, %eax                # imm = 0x1FFFFFFF
	movq	%rax, 120(%rsp)                 # 8-byte Spill
	movq	112(%rsp), %rax                 # 8-byte Reload
	andl	$536870911, %eax                # imm = 0x1FFFFFFF
	movq	%rax, 112(%rsp)                 # 8-byte Spill
	movq	104(%rsp), %rax                 # 8-byte Reload
	andl	$536870911, %eax                # imm = 0x1FFFFFFF
	movq	%rax, 104(%rsp)                 # 8-byte Spill
	movq	96(%rsp), %rax                  # 8-byte Reload
	andl	$536870911, %eax                # imm = 0x1FFFFFFF
	movq	%rax, 96(%rsp)                  # 8-byte Spill
	leaq	600(%rsp), %r15
	leaq	864(%rsp), %rcx
	xorl	%eax, %eax
	movq	80(%rsp), %rbp                  # 8-byte Reload
	movq	56(%rsp), %rdx                  # 8-byte Reload
	movq	32(%rsp), %r9                   # 8-byte Reload
	movq	48(%rsp), %r8                   # 8-byte Reload
	movq	64(%rsp), %rsi                  # 8-byte Reload
	movq	16(%rsp), %rdi                  # 8-byte Reload
	jmp	.LBB28_3
	.p2align	4
.LBB28_4:                               #   in Loop: Header=BB28_3 Depth=1
	movq	%r12, 32(%rsp)                  # 8-byte Spill
	movq	%rdx, 16(%rsp)                  # 8-byte Spill
	movq	%rbx, 64(%rsp)                  # 8-byte Spill
	movq	%r11, 56(%rsp)                  # 8-byte Spill
	movq	%r14, 72(%rsp)                  # 8-byte Spill
	movq	160(%rsp), %rcx                 # 8-byte Reload
	movq	152(%rsp), %r13                 # 8-byte Reload
	movq	%rsi, 48(%rsp)                  # 8-byte Spill
.LBB28_8:                               # %"arms::sight.exit"
                                        #   in Loop: Header=BB28_3 Depth=1
	movq	144(%rsp), %rsi                 # 8-byte Reload
	movq	168(%rsp), %rax                 # 8-byte Reload
	movabsq	$1152921504606846975, %r8       # imm = 0xFFFFFFFFFFFFFFF
	andq	%r8, %rax
	movq	304(%rsp), %rdx                 # 8-byte Reload
	andq	%r8, %rdx
	addq	%rax, %rdx
	movq	%rdx, 168(%rsp)                 # 8-byte Spill
	andq	%r8, %rsi
	movq	352(%rsp), %rdx                 # 8-byte Reload
	andq	%r8, %rdx
	addq	%rsi, %rdx
	movq	88(%rsp), %rax                  # 8-byte Reload
	andq	%r8, %rax
	movq	368(%rsp), %r11                 # 8-byte Reload
	andq	%r8, %r11
	addq	%rax, %r11
	andq	%r8, %rcx
	movq	344(%rsp), %rax                 # 8-byte Reload
	andl	$536870911, %eax                # imm = 0x1FFFFFFF
	addq	%rcx, %rax
	movq	312(%rsp), %rcx                 # 8-byte Reload
	andq	%r8, %rcx
	addq	%rcx, %rax
	movq	336(%rsp), %rcx                 # 8-byte Reload
	andl	$536870911, %ecx                # imm = 0x1FFFFFFF
	movq	328(%rsp), %rsi                 # 8-byte Reload
	andl	$536870911, %esi                # imm = 0x1FFFFFFF
	imulq	%rcx, %rsi
	movq	320(%rsp), %rbx                 # 8-byte Reload
	andl	$536870911, %ebx                # imm = 0x1FFFFFFF
	addq	%rax, %rbx
	addq	%rsi, %rbx
	movq	408(%rsp), %rdi                 # 8-byte Reload
	andl	$536870911, %edi                # imm = 0x1FFFFFFF
	movq	392(%rsp), %r10                 # 8-byte Reload
	andl	$536870911, %r10d               # imm = 0x1FFFFFFF
	movq	%r10, %r14
	imulq	%rdi, %r14
	addq	%rdx, %r14
	movq	424(%rsp), %r15                 # 8-byte Reload
	andl	$536870911, %r15d               # imm = 0x1FFFFFFF
	movq	440(%rsp), %rsi                 # 8-byte Reload
	andl	$536870911, %esi                # imm = 0x1FFFFFFF
	movq	360(%rsp), %r9                  # 8-byte Reload
	andl	$536870911, %r9d                # imm = 0x1FFFFFFF
	movq	376(%rsp), %rax                 # 8-byte Reload
	andl	$536870911, %eax                # imm = 0x1FFFFFFF
	addq	%rdi, %r15
	movq	%rax, %rcx
	imulq	%r15, %rcx
	movq	%r9, %rdx
	imulq	%rsi, %rdx
	addq	%rcx, %rdx
	addq	%r14, %rdx
	movq	432(%rsp), %r12                 # 8-byte Reload
	andl	$536870911, %r12d               # imm = 0x1FFFFFFF
	movq	384(%rsp), %rcx                 # 8-byte Reload
	andl	$536870911, %ecx                # imm = 0x1FFFFFFF
	leaq	(%r9,%rcx), %r14
	imulq	%r12, %r14
	addq	%rdx, %r14
	imulq	%r9, %r15
	imulq	%rdi, %rcx
	addq	%r11, %rcx
	imulq	%rax, %rsi
	addq	%r15, %rsi
	addq	%rcx, %rsi
	addq	%r10, %rax
	imulq	%r12, %rax
	addq	%rsi, %rax
	movq	%rax, 88(%rsp)                  # 8-byte Spill
	movq	24(%rsp), %rsi                  # 8-byte Reload
	incq	%rsi
	andq	%r8, %r13
	movq	416(%rsp), %rcx                 # 8-byte Reload
	andq	%r8, %rcx
	movq	448(%rsp), %rax                 # 8-byte Reload
	andl	$536870911, %eax                # imm = 0x1FFFFFFF
	movq	400(%rsp), %rdx                 # 8-byte Reload
	andl	$536870911, %edx                # imm = 0x1FFFFFFF
	cmpq	%rcx, %r13
	cmovbeq	%rcx, %r13
	addq	%rdx, %rax
	incq	%rax
	cmpq	%rax, %r13
	cmovbeq	%rax, %r13
	movq	464(%rsp), %r15                 # 8-byte Reload
	addq	$72, %r15
	movq	456(%rsp), %rcx                 # 8-byte Reload
	addq	$112, %rcx
	movq	%rsi, %rax
	cmpq	%rsi, 288(%rsp)                 # 8-byte Folded Reload
	movq	56(%rsp), %rdx                  # 8-byte Reload
	movq	64(%rsp), %rsi                  # 8-byte Reload
	movq	16(%rsp), %rdi                  # 8-byte Reload
	movq	48(%rsp), %r8                   # 8-byte Reload
	movq	32(%rsp), %r9                   # 8-byte Reload
	je	.LBB28_9
.LBB28_3:                               # %join.5
                                        # =>This Inner Loop Header: Depth=1
	movq	%rax, 24(%rsp)                  # 8-byte Spill
	movq	%r14, 144(%rsp)                 # 8-byte Spill
	movq	%r13, 152(%rsp)                 # 8-byte Spill
	movq	%rbx, 160(%rsp)                 # 8-byte Spill
	movq	%r9, 424(%rsp)                  # 8-byte Spill
	movq	40(%rsp), %rax                  # 8-byte Reload
	movq	%rax, 440(%rsp)                 # 8-byte Spill
	movq	%rdx, 408(%rsp)                 # 8-byte Spill
	movq	%rbp, 432(%rsp)                 # 8-byte Spill
	movq	%rsi, 336(%rsp)                 # 8-byte Spill
	movq	%r8, 344(%rsp)                  # 8-byte Spill
	movq	%rdi, 448(%rsp)                 # 8-byte Spill
	movq	-104(%rcx), %rax
	movq	%rax, 304(%rsp)                 # 8-byte Spill
	movq	-88(%rcx), %rax
	movq	%rax, 352(%rsp)                 # 8-byte Spill
	movq	-80(%rcx), %rax
	movq	%rax, 368(%rsp)                 # 8-byte Spill
	movq	-72(%rcx), %rax
	movq	%rax, 312(%rsp)                 # 8-byte Spill
	movq	-64(%rcx), %rax
	movq	%rax, 416(%rsp)                 # 8-byte Spill
	movq	-48(%rcx), %rax
	movq	%rax, 384(%rsp)                 # 8-byte Spill
	movq	-40(%rcx), %rax
	movq	%rax, 392(%rsp)                 # 8-byte Spill
	movq	-32(%rcx), %rax
	movq	%rax, 360(%rsp)                 # 8-byte Spill
	movq	296(%rsp), %rax                 # 8-byte Reload
	movq	%rax, 536(%rsp)
	movq	-24(%rcx), %rax
	movq	%rax, 376(%rsp)                 # 8-byte Spill
	movq	-16(%rcx), %rax
	movq	%rax, 328(%rsp)                 # 8-byte Spill
	movq	-8(%rcx), %rax
	movq	%rax, 320(%rsp)                 # 8-byte Spill
	movq	%rcx, 456(%rsp)                 # 8-byte Spill
	movq	(%rcx), %rax
	movq	%rax, 400(%rsp)                 # 8-byte Spill
	movl	$216, %edx
	leaq	544(%rsp), %rdi
	movq	280(%rsp), %rsi                 # 8-byte Reload
	callq	memcpy@PLT
	movq	(%r15), %rax
	movq	-8(%r15), %rcx
	movq	-16(%r15), %rdi
	movq	-24(%r15), %rbp
	movq	-32(%r15), %r13
	movq	%r15, %rdx
	movq	-40(%r15), %r15
	movq	-56(%rdx), %r14
	movq	%rdx, 464(%rsp)                 # 8-byte Spill
	movq	-48(%rdx), %r12
	movl	536(%rsp), %edx
	movl	%edx, 12(%rsp)
	movq	24(%rsp), %rdx                  # 8-byte Reload
	movzbl	13(%rsp,%rdx), %edx
	xorl	%esi, %esi
	cmpq	$1, %rdx
	sete	%sil
	andl	$536870911, %r14d               # imm = 0x1FFFFFFF
	andl	$536870911, %r12d               # imm = 0x1FFFFFFF
	andl	$536870911, %r15d               # imm = 0x1FFFFFFF
	andl	$536870911, %r13d               # imm = 0x1FFFFFFF
	andl	$536870911, %ebp                # imm = 0x1FFFFFFF
	andl	$536870911, %edi                # imm = 0x1FFFFFFF
	movq	%rdi, 16(%rsp)                  # 8-byte Spill
	andl	$536870911, %ecx                # imm = 0x1FFFFFFF
	andl	$536870911, %eax                # imm = 0x1FFFFFFF
	testb	$1, %dl
	movq	248(%rsp), %r10                 # 8-byte Reload
	movq	%r10, %rdi
	movq	256(%rsp), %r8                  # 8-byte Reload
	cmoveq	%r8, %rdi
	leaq	1(%rdx), %r9
	cmoveq	%r10, %r8
	movq	240(%rsp), %r10                 # 8-byte Reload
	movq	%r10, %r11
	movq	232(%rsp), %rbx                 # 8-byte Reload
	cmoveq	%rbx, %r11
	cmoveq	%r10, %rbx
	movq	%rdi, %r10
	imulq	%r9, %r10
	addq	%r11, %r10
	imulq	%r8, %r9
	addq	%rbx, %r9
	xorl	%r11d, %r11d
	xorl	%ebx, %ebx
	testq	%rdx, %rdx
	cmoveq	264(%rsp), %r11                 # 8-byte Folded Reload
	sete	%bl
	addq	%rcx, %rsi
	addq	%r11, %rsi
	movq	%r13, %r11
	addq	%r9, %r14
	addq	%r10, %r14
	addq	%r10, %r12
	addq	%r9, %r15
	movq	%r15, 40(%rsp)                  # 8-byte Spill
	addq	%rdi, %r11
	addq	%r8, %rbp
	addq	16(%rsp), %rbx                  # 8-byte Folded Reload
	movq	272(%rsp), %rcx                 # 8-byte Reload
	addq	%rcx, %rdx
	incq	%rdx
	cmpq	%rdx, %rax
	cmovaq	%rax, %rdx
	cmpq	$0, 24(%rsp)                    # 8-byte Folded Reload
	je	.LBB28_4
# %bb.5:                                # %join.5.i.1
                                        #   in Loop: Header=BB28_3 Depth=1
	movl	608(%rsp), %eax
	movl	%eax, 12(%rsp)
	movq	24(%rsp), %rax                  # 8-byte Reload
	movzbl	13(%rsp,%rax), %eax
                                        # kill: def $esi killed $esi killed $rsi def $rsi
	xorl	%edi, %edi
	cmpq	$1, %rax
	sete	%dil
	andl	$536870911, %r14d               # imm = 0x1FFFFFFF
	andl	$536870911, %r12d               # imm = 0x1FFFFFFF
	movq	40(%rsp), %r13                  # 8-byte Reload
	andl	$536870911, %r13d               # imm = 0x1FFFFFFF
	andl	$536870911, %r11d               # imm = 0x1FFFFFFF
	andl	$536870911, %ebp                # imm = 0x1FFFFFFF
	movq	%rbp, 80(%rsp)                  # 8-byte Spill
	movl	%ebx, %ecx
	andl	$536870911, %ecx                # imm = 0x1FFFFFFF
	andl	$536870911, %esi                # imm = 0x1FFFFFFF
                                        # kill: def $edx killed $edx killed $rdx def $rdx
	andl	$536870911, %edx                # imm = 0x1FFFFFFF
	testb	$1, %al
	movq	208(%rsp), %rbx                 # 8-byte Reload
	movq	%rbx, %r8
	movq	200(%rsp), %r9                  # 8-byte Reload
	cmoveq	%r9, %r8
	cmoveq	%rbx, %r9
	movq	224(%rsp), %r15                 # 8-byte Reload
	movq	%r15, %rbx
	movq	216(%rsp), %rbp                 # 8-byte Reload
	cmoveq	%rbp, %rbx
	cmoveq	%r15, %rbp
	movq	%r12, %r15
	leaq	1(%rax), %r10
	movq	%r13, %r12
	movq	%r11, %r13
	movq	%r8, %r11
	imulq	%r10, %r11
	addq	%rbx, %r11
	imulq	%r9, %r10
	addq	%rbp, %r10
	xorl	%ebx, %ebx
	xorl	%ebp, %ebp
	testq	%rax, %rax
	sete	%bpl
	cmoveq	192(%rsp), %rbx                 # 8-byte Folded Reload
	addq	%rbx, %rdi
	movq	%r15, %rbx
	movq	%rdi, %r15
	addq	%rsi, %r15
	addq	%r10, %r14
	addq	%r11, %r14
	addq	%r11, %rbx
	movq	%r13, %r11
	movq	80(%rsp), %rsi                  # 8-byte Reload
	addq	%r10, %r12
	movq	%r12, 40(%rsp)                  # 8-byte Spill
	movq	%rbp, %r12
	addq	%r8, %r11
	addq	%r9, %rsi
	addq	%rcx, %r12
	movq	184(%rsp), %rcx                 # 8-byte Reload
	leaq	(%rax,%rcx), %rdi
	incq	%rdi
	cmpq	%rdi, %rdx
	cmovaq	%rdx, %rdi
	cmpq	$1, 24(%rsp)                    # 8-byte Folded Reload
	movq	%r14, %r13
	jne	.LBB28_7
# %bb.6:                                #   in Loop: Header=BB28_3 Depth=1
	movq	%r15, 48(%rsp)                  # 8-byte Spill
	movq	%rdi, 16(%rsp)                  # 8-byte Spill
	movq	%r12, 64(%rsp)                  # 8-byte Spill
	movq	%rsi, %rbp
	movq	%r11, 56(%rsp)                  # 8-byte Spill
	movq	%r13, 72(%rsp)                  # 8-byte Spill
	movq	160(%rsp), %rcx                 # 8-byte Reload
	movq	152(%rsp), %r13                 # 8-byte Reload
	movq	%rbx, 32(%rsp)                  # 8-byte Spill
	jmp	.LBB28_8
	.p2align	4
.LBB28_7:                               # %join.5.i.2
                                        #   in Loop: Header=BB28_3 Depth=1
	movl	680(%rsp), %eax
	leaq	12(%rsp), %rcx
	movl	%eax, (%rcx)
	movq	24(%rsp), %rax                  # 8-byte Reload
	movzbl	13(%rsp,%rax), %eax
	xorl	%ecx, %ecx
	cmpq	$1, %rax
	sete	%cl
	andl	$536870911, %r13d               # imm = 0x1FFFFFFF
	andl	$536870911, %ebx                # imm = 0x1FFFFFFF
	movq	%rbx, 32(%rsp)                  # 8-byte Spill
	movq	40(%rsp), %rbx                  # 8-byte Reload
	andl	$536870911, %ebx                # imm = 0x1FFFFFFF
	andl	$536870911, %r11d               # imm = 0x1FFFFFFF
	andl	$536870911, %esi                # imm = 0x1FFFFFFF
	andl	$536870911, %r12d               # imm = 0x1FFFFFFF
	andl	$536870911, %r15d               # imm = 0x1FFFFFFF
	andl	$536870911, %edi                # imm = 0x1FFFFFFF
	movq	%rdi, 16(%rsp)                  # 8-byte Spill
	testb	$1, %al
	movq	120(%rsp), %rdi                 # 8-byte Reload
	movq	%rdi, %rdx
	movq	%rsi, %rbp
	movq	112(%rsp), %rsi                 # 8-byte Reload
	cmoveq	%rsi, %rdx
	cmoveq	%rdi, %rsi
	leaq	1(%rax), %rdi
	movq	136(%rsp), %r8                  # 8-byte Reload
	movq	%r8, %r9
	movq	128(%rsp), %r10                 # 8-byte Reload
	cmoveq	%r10, %r9
	cmoveq	%r8, %r10
	movq	%rdx, %r8
	imulq	%rdi, %r8
	addq	%r9, %r8
	imulq	%rsi, %rdi
	addq	%r10, %rdi
	xorl	%r10d, %r10d
	xorl	%r9d, %r9d
	testq	%rax, %rax
	sete	%r9b
	cmoveq	104(%rsp), %r10                 # 8-byte Folded Reload
	addq	%r10, %rcx
	addq	%rcx, %r15
	movq	%r15, 48(%rsp)                  # 8-byte Spill
	addq	%rdi, %r13
	addq	%r8, %r13
	movq	%r13, 72(%rsp)                  # 8-byte Spill
	addq	%r8, 32(%rsp)                   # 8-byte Folded Spill
	addq	%rdi, %rbx
	movq	%rbx, 40(%rsp)                  # 8-byte Spill
	addq	%rdx, %r11
	movq	%r11, 56(%rsp)                  # 8-byte Spill
	addq	%rsi, %rbp
	addq	%r9, %r12
	movq	%r12, 64(%rsp)                  # 8-byte Spill
	movq	16(%rsp), %rdx                  # 8-byte Reload
	movq	96(%rsp), %rcx                  # 8-byte Reload
	addq	%rcx, %rax
	incq	%rax
	cmpq	%rax, %rdx
	cmovbeq	%rax, %rdx
	movq	%rdx, 16(%rsp)                  # 8-byte Spill
	movq	160(%rsp), %rcx                 # 8-byte Reload
	movq	152(%rsp), %r13                 # 8-byte Reload
	jmp	.LBB28_8
.LBB28_9:                               # %loop.2.after.1_crit_edge
	movq	88(%rsp), %r10                  # 8-byte Reload
	leaq	(%r10,%r14), %rsi
	jmp	.LBB28_10
.LBB28_1:
	movq	80(%rsp), %rbp                  # 8-byte Reload
	movq	56(%rsp), %rdx                  # 8-byte Reload
	movq	32(%rsp), %r9                   # 8-byte Reload
	movq	48(%rsp), %r8                   # 8-byte Reload
	movq	16(%rsp), %rdi                  # 8-byte Reload
	movq	24(%rsp), %rsi                  # 8-byte Reload
	movq	88(%rsp), %r10                  # 8-byte Reload
.LBB28_10:                              # %after.1
	movq	176(%rsp), %rax                 # 8-byte Reload
	movq	168(%rsp), %rcx                 # 8-byte Reload
	movq	%rcx, (%rax)
	movq	%rsi, 8(%rax)
	movq	%r14, 16(%rax)
	movq	%r10, 24(%rax)
	movq	%rbx, 32(%rax)
	movq	%r13, 40(%rax)
	movq	72(%rsp), %rcx                  # 8-byte Reload
	movq	%rcx, 48(%rax)
	movq	%r9, 56(%rax)
	movq	40(%rsp), %rcx                  # 8-byte Reload
	movq	%rcx, 64(%rax)
	movq	%rdx, 72(%rax)
	movq	%rbp, 80(%rax)
	movq	64(%rsp), %rcx                  # 8-byte Reload
	movq	%rcx, 88(%rax)
	movq	%r8, 96(%rax)
	movq	%rdi, 104(%rax)
	addq	$1208, %rsp                     # imm = 0x4B8
	popq	%rbx
	popq	%r12
	popq	%r13
	popq	%r14
	popq	%r15
	popq	%rbp
	retq
.Lfunc_end28:
	.size	"arms::stem_of", .Lfunc_end28-"arms::stem_of"
                                        # -- End function
	.section	".text.placing::entries::put_each","ax",@progbits
	.p2align	4                               # -- Begin function placing::entries::put_each
	.type	"placing::entries::put_each",@function
"placing::entries::put_each":           # @"placing::entries::put_each"
# %bb.0:                                # %start
	pushq	%rbp
	pushq	%r15
	pushq	%r14
	pushq	%r13
	pushq	%r12
	pushq	%rbx
	movq	64(%rsp), %rax
	testq	%r8, %r8
	je	.LBB29_20
# %bb.1:                                # %join.5.lr.ph
	xorl	%ebx, %ebx
	jmp	.LBB29_5
.LBB29_17:                              #   in Loop: Header=BB29_5 Depth=1
	xorl	%eax, %eax
	.p2align	4
.LBB29_4:                               # %"placing::entries::put_in.exit"
                                        #   in Loop: Header=BB29_5 Depth=1
	incq	%rbx
	cmpq	%r8, %rbx
	je	.LBB29_20
.LBB29_5:                               # %join.5
                                        # =>This Loop Header: Depth=1
                                        #     Child Loop BB29_14 Depth 2
                                        #     Child Loop BB29_8 Depth 2
	leaq	(%rbx,%rcx), %r14
	movq	(%rdx,%r14,8), %r15
	cmpq	56(%rsp), %rax
	jae	.LBB29_10
# %bb.6:                                # %then.1.i
                                        #   in Loop: Header=BB29_5 Depth=1
	testq	%rax, %rax
	je	.LBB29_2
# %bb.7:                                # %join.5.i.i.preheader
                                        #   in Loop: Header=BB29_5 Depth=1
	leaq	(%rax,%rax,2), %r12
	leaq	(%r9,%r12,8), %r12
	movq	%rax, %r13
	.p2align	4
.LBB29_8:                               # %join.5.i.i
                                        #   Parent Loop BB29_5 Depth=1
                                        # =>  This Inner Loop Header: Depth=2
	movq	-24(%r12), %rbp
	xorl	%r11d, %r11d
	xorl	%r10d, %r10d
	cmpq	%r15, %rbp
	setb	%r11b
	seta	%r10b
	testb	%dil, %dil
	cmovnel	%r11d, %r10d
	cmpb	$1, %r10b
	jne	.LBB29_18
# %bb.9:                                # %then.6.i.i
                                        #   in Loop: Header=BB29_8 Depth=2
	decq	%r13
	movq	%rbp, (%r12)
	movups	-16(%r12), %xmm0
	movups	%xmm0, 8(%r12)
	addq	$-24, %r12
	testq	%r13, %r13
	jne	.LBB29_8
.LBB29_2:                               # %after.1.i.i
                                        #   in Loop: Header=BB29_5 Depth=1
	movq	%r15, (%r9)
	movq	%rsi, 8(%r9)
	movq	%r14, 16(%r9)
	jmp	.LBB29_3
	.p2align	4
.LBB29_10:                              # %join.3.i
                                        #   in Loop: Header=BB29_5 Depth=1
	testq	%rax, %rax
	je	.LBB29_17
# %bb.11:                               # %join.6.i
                                        #   in Loop: Header=BB29_5 Depth=1
	leaq	-1(%rax), %r12
	leaq	(%r12,%r12,2), %r10
	movq	(%r9,%r10,8), %r10
	xorl	%r11d, %r11d
	xorl	%ebp, %ebp
	cmpq	%r15, %r10
	setb	%r11b
	seta	%bpl
	testb	%dil, %dil
	cmovnel	%r11d, %ebp
	cmpb	$1, %bpl
	jne	.LBB29_4
# %bb.12:                               # %then.7.i
                                        #   in Loop: Header=BB29_5 Depth=1
	testq	%r12, %r12
	je	.LBB29_16
# %bb.13:                               # %join.5.i7.i.preheader
                                        #   in Loop: Header=BB29_5 Depth=1
	leaq	(%rax,%rax,2), %r10
	leaq	-8(%r9), %r11
	leaq	(%r11,%r10,8), %r12
	movl	$1, %r13d
	.p2align	4
.LBB29_14:                              # %join.5.i7.i
                                        #   Parent Loop BB29_5 Depth=1
                                        # =>  This Inner Loop Header: Depth=2
	movq	-40(%r12), %rbp
	xorl	%r10d, %r10d
	xorl	%r11d, %r11d
	cmpq	%r15, %rbp
	setb	%r10b
	seta	%r11b
	testb	%dil, %dil
	cmovnel	%r10d, %r11d
	cmpb	$1, %r11b
	jne	.LBB29_19
# %bb.15:                               # %then.6.i21.i
                                        #   in Loop: Header=BB29_14 Depth=2
	movq	%rbp, -16(%r12)
	movups	-32(%r12), %xmm0
	movups	%xmm0, -8(%r12)
	addq	$-24, %r12
	incq	%r13
	cmpq	%r13, %rax
	jne	.LBB29_14
.LBB29_16:                              # %after.1.i31.i
                                        #   in Loop: Header=BB29_5 Depth=1
	movq	%r15, (%r9)
	movq	%rsi, 8(%r9)
	movq	%r14, 16(%r9)
	jmp	.LBB29_4
.LBB29_18:                              # %else.7.i.i
                                        #   in Loop: Header=BB29_5 Depth=1
	movq	%r15, (%r12)
	movq	%rsi, 8(%r12)
	movq	%r14, 16(%r12)
.LBB29_3:                               # %"placing::entries::put_in.exit"
                                        #   in Loop: Header=BB29_5 Depth=1
	incq	%rax
	jmp	.LBB29_4
.LBB29_19:                              # %else.7.i16.i
                                        #   in Loop: Header=BB29_5 Depth=1
	movq	%r15, -16(%r12)
	movq	%rsi, -8(%r12)
	movq	%r14, (%r12)
	jmp	.LBB29_4
.LBB29_20:                              # %after.1
	popq	%rbx
	popq	%r12
	popq	%r13
	popq	%r14
	popq	%r15
	popq	%rbp
	retq
.Lfunc_end29:
	.size	"placing::entries::put_each", .Lfunc_end29-"placing::entries::put_each"
                                        # -- End function
	.section	".text.library::product","ax",@progbits
	.p2align	4                               # -- Begin function library::product
	.type	"library::product",@function
"library::product":                     # @"library::product"
# %bb.0:                                # %start
	pushq	%rbp
	pushq	%r15
	pushq	%r14
	pushq	%r13
	pushq	%r12
	pushq	%rbx
	subq	$3072, %rsp                     # imm = 0xC00
	movq	$0, (%rsp)
	subq	$24, %rsp
	movq	%rcx, %r13
	movq	%rdx, %r15
	movq	%rsi, %r12
	movq	%rdi, %rbp
	xorps	%xmm0, %xmm0
	movaps	%xmm0, 768(%rsp)
	movaps	%xmm0, 752(%rsp)
	movaps	%xmm0, 736(%rsp)
	movaps	%xmm0, 720(%rsp)
	movaps	%xmm0, 704(%rsp)
	movaps	%xmm0, 688(%rsp)
	movaps	%xmm0, 672(%rsp)
	movaps	%xmm0, 656(%rsp)
	movaps	%xmm0, 640(%rsp)
	movaps	%xmm0, 624(%rsp)
	movaps	%xmm0, 608(%rsp)
	movaps	%xmm0, 592(%rsp)
	movaps	%xmm0, 576(%rsp)
	movaps	%xmm0, 560(%rsp)
	movaps	%xmm0, 544(%rsp)
	movq	$0, 784(%rsp)
	leaq	2568(%rsp), %r14
	movl	$528, %edx                      # imm = 0x210
	movq	%r14, %rdi
	xorl	%esi, %esi
	callq	memset@PLT
	leaq	544(%rsp), %rdi
	movl	$528, %r8d                      # imm = 0x210
	movq	%r12, %rsi
	movq	%r15, %rdx
	movq	%r14, %rcx
	callq	"catalogue::read_library"
	cmpb	$0, 544(%rsp)
	je	.LBB30_1
# %bb.29:                               # %arm.2
	movq	$1, (%rbp)
	movups	552(%rsp), %xmm0
	movups	%xmm0, 8(%rbp)
	xorps	%xmm0, %xmm0
	movups	%xmm0, 24(%rbp)
	movups	%xmm0, 40(%rbp)
	movq	$0, 56(%rbp)
	jmp	.LBB30_3
.LBB30_1:                               # %arm.1
	cmpq	%r13, 784(%rsp)
	jbe	.LBB30_2
# %bb.4:                                # %join.7
	movq	568(%rsp), %rax
	movq	%rax, 256(%rsp)                 # 8-byte Spill
	movq	576(%rsp), %rax
	movq	%rax, 56(%rsp)                  # 8-byte Spill
	movzbl	720(%rsp), %eax
	movb	%al, 55(%rsp)                   # 1-byte Spill
	movzbl	721(%rsp), %eax
	movb	%al, 80(%rsp)                   # 1-byte Spill
	movq	728(%rsp), %rax
	movq	%rax, 272(%rsp)                 # 8-byte Spill
	movzbl	736(%rsp), %eax
	movb	%al, 54(%rsp)                   # 1-byte Spill
	movzbl	737(%rsp), %eax
	movb	%al, 88(%rsp)                   # 1-byte Spill
	movq	744(%rsp), %rax
	movq	%rax, 280(%rsp)                 # 8-byte Spill
	movzbl	752(%rsp), %eax
	movb	%al, 53(%rsp)                   # 1-byte Spill
	movzbl	753(%rsp), %eax
	movb	%al, 96(%rsp)                   # 1-byte Spill
	movq	760(%rsp), %rax
	movq	%rax, 104(%rsp)                 # 8-byte Spill
	movzbl	768(%rsp), %eax
	movb	%al, 52(%rsp)                   # 1-byte Spill
	movzbl	769(%rsp), %eax
	movb	%al, 120(%rsp)                  # 1-byte Spill
	movq	776(%rsp), %rax
	movq	%rax, 112(%rsp)                 # 8-byte Spill
	movq	704(%rsp), %rbx
	movq	712(%rsp), %r14
	leaq	1784(%rsp), %rdi
	movq	$0, 264(%rsp)                   # 8-byte Folded Spill
	movl	$336, %edx                      # imm = 0x150
	xorl	%esi, %esi
	callq	memset@PLT
	xorps	%xmm0, %xmm0
	movaps	%xmm0, 432(%rsp)
	movaps	%xmm0, 448(%rsp)
	movaps	%xmm0, 464(%rsp)
	movaps	%xmm0, 480(%rsp)
	movaps	%xmm0, 496(%rsp)
	movaps	%xmm0, 512(%rsp)
	movaps	%xmm0, 528(%rsp)
	cmpq	%rbx, %r15
	movq	%rbp, 296(%rsp)                 # 8-byte Spill
	jae	.LBB30_6
# %bb.5:
	movq	%r15, %rbp
	jmp	.LBB30_11
.LBB30_2:                               # %then.5
	xorps	%xmm0, %xmm0
	movups	%xmm0, 48(%rbp)
	movups	%xmm0, 32(%rbp)
	movups	%xmm0, 16(%rbp)
	movups	%xmm0, (%rbp)
	jmp	.LBB30_3
.LBB30_6:                               # %join.3.i.i
	leaq	4(%rbx), %rax
	cmpq	%r15, %rbx
	jae	.LBB30_7
# %bb.8:                                # %"records::byte_at.exit.i.i.i"
	movzbl	(%r12,%rbx), %ecx
	incq	%rbx
	cmpq	%r15, %rbx
	jae	.LBB30_10
# %bb.9:                                # %then.1.i6.i.i.i
	movzbl	(%r12,%rbx), %edx
	shll	$8, %edx
	movzwl	%cx, %ecx
	orl	%edx, %ecx
	jmp	.LBB30_10
.LBB30_7:
	xorl	%ecx, %ecx
.LBB30_10:                              # %"records::le16_at.exit.i.i"
	movq	%r15, %rdx
	subq	%rax, %rdx
	movq	%rax, %rbp
	cmovbq	%r15, %rbp
	movzwl	%cx, %ecx
	cmpq	%rcx, %rdx
	cmovaeq	%rcx, %rdx
	xorl	%ecx, %ecx
	cmpq	%rax, %r15
	cmovaeq	%rdx, %rcx
	movq	%rcx, 264(%rsp)                 # 8-byte Spill
.LBB30_11:                              # %"records::payload_at.exit.i"
	movzbl	80(%rsp), %eax                  # 1-byte Folded Reload
	movb	%al, 1257(%rsp)
	movzbl	88(%rsp), %eax                  # 1-byte Folded Reload
	movb	%al, 1273(%rsp)
	movzbl	96(%rsp), %eax                  # 1-byte Folded Reload
	movb	%al, 1289(%rsp)
	movzbl	120(%rsp), %eax                 # 1-byte Folded Reload
	movb	%al, 1305(%rsp)
	movaps	%xmm0, 800(%rsp)
	movaps	%xmm0, 816(%rsp)
	testq	%r14, %r14
	movq	%r14, 288(%rsp)                 # 8-byte Spill
	je	.LBB30_12
# %bb.13:                               # %join.7.i.i.preheader
	leaq	-1(%r14), %rcx
	movq	%r14, %rax
	shlq	$4, %rax
	leaq	1256(%rsp), %rdx
	leaq	(%rax,%rdx), %rsi
	addq	$-15, %rsi
	jmp	.LBB30_14
	.p2align	4
.LBB30_17:                              #   in Loop: Header=BB30_14 Depth=1
	movq	%r13, %rax
	xorl	%edx, %edx
	divq	%rdi
	movq	%rax, %r13
	movq	%rdx, 800(%rsp,%rcx,8)
	addq	$-16, %rsi
	addq	$-1, %rcx
	jae	.LBB30_19
.LBB30_14:                              # %join.7.i.i
                                        # =>This Inner Loop Header: Depth=1
	movzbl	(%rsi), %edi
	testq	%rdi, %rdi
	je	.LBB30_30
# %bb.15:                               # %ok.9.i.i
                                        #   in Loop: Header=BB30_14 Depth=1
	movq	%r13, %rax
	shrq	$32, %rax
	jne	.LBB30_17
# %bb.16:                               #   in Loop: Header=BB30_14 Depth=1
	movl	%r13d, %eax
	xorl	%edx, %edx
	divl	%edi
                                        # kill: def $edx killed $edx def $rdx
	movl	%eax, %r13d
	movq	%rdx, 800(%rsp,%rcx,8)
	addq	$-16, %rsi
	addq	$-1, %rcx
	jb	.LBB30_14
.LBB30_19:                              # %"library::choice::choose.exit.loopexit.i"
	movq	800(%rsp), %r14
	movq	808(%rsp), %rax
	movq	%rax, 248(%rsp)                 # 8-byte Spill
	movq	816(%rsp), %rax
	movq	%rax, 64(%rsp)                  # 8-byte Spill
	movq	824(%rsp), %rax
	movq	%rax, 72(%rsp)                  # 8-byte Spill
	jmp	.LBB30_20
.LBB30_12:
	movq	$0, 72(%rsp)                    # 8-byte Folded Spill
	movq	$0, 64(%rsp)                    # 8-byte Folded Spill
	movq	$0, 248(%rsp)                   # 8-byte Folded Spill
	xorl	%r14d, %r14d
.LBB30_20:                              # %"library::choice::choose.exit.i"
	movq	56(%rsp), %rax                  # 8-byte Reload
	leaq	584(%rsp), %r13
	addq	%r12, %rbp
	movq	%rax, 304(%rsp)
	movups	(%r13), %xmm0
	movups	16(%r13), %xmm1
	movups	32(%r13), %xmm2
	movups	48(%r13), %xmm3
	movups	%xmm0, 312(%rsp)
	movups	%xmm1, 328(%rsp)
	movups	%xmm2, 344(%rsp)
	movups	%xmm3, 360(%rsp)
	movups	64(%r13), %xmm0
	movups	%xmm0, 376(%rsp)
	movups	80(%r13), %xmm0
	movups	%xmm0, 392(%rsp)
	movups	96(%r13), %xmm0
	movups	%xmm0, 408(%rsp)
	movq	112(%r13), %rax
	movq	%rax, 424(%rsp)
	leaq	1256(%rsp), %rbx
	movl	$528, %edx                      # imm = 0x210
	movq	%rbx, %rdi
	xorl	%esi, %esi
	callq	memset@PLT
	movq	$65536, 128(%rsp)               # imm = 0x10000
	movq	%rbx, 40(%rsp)
	leaq	128(%rsp), %rax
	movq	%rax, 32(%rsp)
	movq	%r14, 24(%rsp)
	movq	272(%rsp), %rax                 # 8-byte Reload
	movq	%rax, 16(%rsp)
	movzbl	80(%rsp), %eax                  # 1-byte Folded Reload
	movl	%eax, 8(%rsp)
	movq	264(%rsp), %rbx                 # 8-byte Reload
	movq	%rbx, (%rsp)
	leaq	136(%rsp), %rdi
	leaq	304(%rsp), %rcx
	movq	%r12, %rsi
	movq	%r15, %rdx
	movq	256(%rsp), %r14                 # 8-byte Reload
	movq	%r14, %r8
	movq	%rbp, %r9
	callq	"stock::held_arm"
	movups	232(%rsp), %xmm0
	movaps	%xmm0, 896(%rsp)
	movups	216(%rsp), %xmm0
	movaps	%xmm0, 880(%rsp)
	movups	200(%rsp), %xmm0
	movaps	%xmm0, 864(%rsp)
	movups	136(%rsp), %xmm0
	movups	152(%rsp), %xmm1
	movups	168(%rsp), %xmm2
	movups	184(%rsp), %xmm3
	movaps	%xmm3, 848(%rsp)
	movaps	%xmm2, 832(%rsp)
	movaps	%xmm1, 816(%rsp)
	movaps	%xmm0, 800(%rsp)
	leaq	1256(%rsp), %rax
	movq	%rax, 40(%rsp)
	leaq	128(%rsp), %rax
	movq	%rax, 32(%rsp)
	movq	248(%rsp), %rax                 # 8-byte Reload
	movq	%rax, 24(%rsp)
	movq	280(%rsp), %rax                 # 8-byte Reload
	movq	%rax, 16(%rsp)
	movzbl	88(%rsp), %eax                  # 1-byte Folded Reload
	movl	%eax, 8(%rsp)
	movq	%rbx, (%rsp)
	leaq	136(%rsp), %rdi
	movq	%r12, %rsi
	movq	%r15, %rdx
	leaq	304(%rsp), %rcx
	movq	%r14, %r8
	movq	%rbp, %r9
	callq	"stock::held_arm"
	movups	232(%rsp), %xmm0
	movaps	%xmm0, 1008(%rsp)
	movups	216(%rsp), %xmm0
	movaps	%xmm0, 992(%rsp)
	movups	200(%rsp), %xmm0
	movaps	%xmm0, 976(%rsp)
	movups	136(%rsp), %xmm0
	movups	152(%rsp), %xmm1
	movups	168(%rsp), %xmm2
	movups	184(%rsp), %xmm3
	movaps	%xmm3, 960(%rsp)
	movaps	%xmm2, 944(%rsp)
	movaps	%xmm1, 928(%rsp)
	movaps	%xmm0, 912(%rsp)
	leaq	1256(%rsp), %rax
	movq	%rax, 40(%rsp)
	leaq	128(%rsp), %rax
	movq	%rax, 32(%rsp)
	movq	64(%rsp), %rax                  # 8-byte Reload
	movq	%rax, 24(%rsp)
	movq	104(%rsp), %rax                 # 8-byte Reload
	movq	%rax, 16(%rsp)
	movzbl	96(%rsp), %eax                  # 1-byte Folded Reload
	movl	%eax, 8(%rsp)
	movq	%rbx, (%rsp)
	leaq	136(%rsp), %rdi
	movq	%r12, %rsi
	movq	%r15, %rdx
	leaq	304(%rsp), %rcx
	movq	%r14, %r8
	movq	%rbp, %r9
	callq	"stock::held_arm"
	movups	232(%rsp), %xmm0
	movaps	%xmm0, 1120(%rsp)
	movups	216(%rsp), %xmm0
	movaps	%xmm0, 1104(%rsp)
	movups	200(%rsp), %xmm0
	movaps	%xmm0, 1088(%rsp)
	movups	136(%rsp), %xmm0
	movups	152(%rsp), %xmm1
	movups	168(%rsp), %xmm2
	movups	184(%rsp), %xmm3
	movaps	%xmm3, 1072(%rsp)
	movaps	%xmm2, 1056(%rsp)
	movaps	%xmm1, 1040(%rsp)
	movaps	%xmm0, 1024(%rsp)
	leaq	1256(%rsp), %rax
	movq	%rax, 40(%rsp)
	leaq	128(%rsp), %rax
	movq	%rax, 32(%rsp)
	movq	72(%rsp), %rax                  # 8-byte Reload
	movq	%rax, 24(%rsp)
	movq	112(%rsp), %rax                 # 8-byte Reload
	movq	%rax, 16(%rsp)
	movq	%r12, %rsi
	movzbl	120(%rsp), %r12d                # 1-byte Folded Reload
	movzbl	%r12b, %eax
	movl	%eax, 8(%rsp)
	movq	%rbx, (%rsp)
	leaq	136(%rsp), %rdi
	movq	%rsi, 64(%rsp)                  # 8-byte Spill
	movq	%r15, %rdx
	leaq	304(%rsp), %rcx
	movq	%r14, %r8
	movq	%rbp, 72(%rsp)                  # 8-byte Spill
	movq	%rbp, %r9
	callq	"stock::held_arm"
	movups	232(%rsp), %xmm0
	movaps	%xmm0, 1232(%rsp)
	movups	216(%rsp), %xmm0
	movaps	%xmm0, 1216(%rsp)
	movups	200(%rsp), %xmm0
	movaps	%xmm0, 1200(%rsp)
	movups	136(%rsp), %xmm0
	movups	152(%rsp), %xmm1
	movups	168(%rsp), %xmm2
	movups	184(%rsp), %xmm3
	movaps	%xmm3, 1184(%rsp)
	movaps	%xmm2, 1168(%rsp)
	movaps	%xmm1, 1152(%rsp)
	movaps	%xmm0, 1136(%rsp)
	leaq	2120(%rsp), %r14
	leaq	800(%rsp), %rsi
	movl	$448, %edx                      # imm = 0x1C0
	movq	%r14, %rdi
	callq	memcpy@PLT
	leaq	1256(%rsp), %rdi
	movl	$448, %edx                      # imm = 0x1C0
	movq	%r14, %rsi
	callq	memcpy@PLT
	movzbl	55(%rsp), %r14d                 # 1-byte Folded Reload
	movb	%r14b, 136(%rsp)
	movzbl	80(%rsp), %eax                  # 1-byte Folded Reload
	movb	%al, 137(%rsp)
	movl	138(%r13), %eax
	movl	%eax, 138(%rsp)
	movzwl	142(%r13), %eax
	movw	%ax, 142(%rsp)
	movq	272(%rsp), %rax                 # 8-byte Reload
	movq	%rax, 144(%rsp)
	movzbl	54(%rsp), %eax                  # 1-byte Folded Reload
	movb	%al, 152(%rsp)
	movzbl	88(%rsp), %eax                  # 1-byte Folded Reload
	movb	%al, 153(%rsp)
	movl	154(%r13), %eax
	movl	%eax, 154(%rsp)
	movzwl	158(%r13), %eax
	movw	%ax, 158(%rsp)
	movq	280(%rsp), %rax                 # 8-byte Reload
	movq	%rax, 160(%rsp)
	movzbl	53(%rsp), %eax                  # 1-byte Folded Reload
	movb	%al, 168(%rsp)
	movzbl	96(%rsp), %eax                  # 1-byte Folded Reload
	movb	%al, 169(%rsp)
	movl	170(%r13), %eax
	movl	%eax, 170(%rsp)
	movzwl	174(%r13), %eax
	movw	%ax, 174(%rsp)
	movq	104(%rsp), %rax                 # 8-byte Reload
	movq	%rax, 176(%rsp)
	movzbl	52(%rsp), %eax                  # 1-byte Folded Reload
	movb	%al, 184(%rsp)
	movb	%r12b, 185(%rsp)
	movzwl	190(%r13), %eax
	movw	%ax, 190(%rsp)
	movl	186(%r13), %eax
	movl	%eax, 186(%rsp)
	movq	112(%rsp), %rax                 # 8-byte Reload
	movq	%rax, 192(%rsp)
	leaq	800(%rsp), %rdi
	movl	$336, %edx                      # imm = 0x150
	xorl	%esi, %esi
	callq	memset@PLT
	testq	%rbx, %rbx
	je	.LBB30_21
# %bb.22:                               # %"records::byte_at.exit.i.i8.i"
	movq	72(%rsp), %r9                   # 8-byte Reload
	movzbl	(%r9), %ecx
	cmpq	$1, %rbx
	je	.LBB30_24
# %bb.23:                               # %then.1.i6.i.i11.i
	movzbl	1(%r9), %eax
	shll	$8, %eax
	movzwl	%cx, %ecx
	orl	%eax, %ecx
.LBB30_24:                              # %"records::le16_at.exit.i14.i"
	movq	56(%rsp), %rax                  # 8-byte Reload
	movq	64(%rsp), %rsi                  # 8-byte Reload
	cmpw	%ax, %cx
	jne	.LBB30_27
.LBB30_26:                              # %then.1.i.i
	movzbl	%r14b, %eax
	movzbl	54(%rsp), %edx                  # 1-byte Folded Reload
	movzbl	53(%rsp), %ecx                  # 1-byte Folded Reload
	movzbl	52(%rsp), %esi                  # 1-byte Folded Reload
	shll	$24, %esi
	shll	$16, %ecx
	shll	$8, %edx
	orl	%eax, %edx
	orl	%ecx, %edx
	orl	%esi, %edx
	leaq	800(%rsp), %r14
	leaq	2568(%rsp), %rsi
	movq	%r14, %rdi
	callq	"arms::core_in"
	jmp	.LBB30_28
.LBB30_21:
	movq	56(%rsp), %rax                  # 8-byte Reload
	movq	72(%rsp), %r9                   # 8-byte Reload
	xorl	%ecx, %ecx
	movq	64(%rsp), %rsi                  # 8-byte Reload
	cmpw	%ax, %cx
	je	.LBB30_26
.LBB30_27:                              # %join.3.i17.i
	movq	%rax, 304(%rsp)
	movups	(%r13), %xmm0
	movups	16(%r13), %xmm1
	movups	32(%r13), %xmm2
	movups	48(%r13), %xmm3
	movups	%xmm0, 312(%rsp)
	movups	%xmm1, 328(%rsp)
	movups	%xmm2, 344(%rsp)
	movups	%xmm3, 360(%rsp)
	movups	64(%r13), %xmm0
	movups	%xmm0, 376(%rsp)
	movups	80(%r13), %xmm0
	movups	%xmm0, 392(%rsp)
	movups	96(%r13), %xmm0
	movups	%xmm0, 408(%rsp)
	movq	112(%r13), %rax
	movq	%rax, 424(%rsp)
	leaq	136(%rsp), %rax
	movq	%rax, 8(%rsp)
	movq	%rbx, (%rsp)
	leaq	800(%rsp), %r14
	leaq	304(%rsp), %rcx
	movq	%r14, %rdi
	movq	%r15, %rdx
	movq	256(%rsp), %r8                  # 8-byte Reload
	callq	"stock::core_at"
.LBB30_28:                              # %"library::fields_at.exit"
	leaq	1784(%rsp), %rdi
	movl	$336, %edx                      # imm = 0x150
	movq	%r14, %rsi
	callq	memcpy@PLT
	movq	288(%rsp), %rcx                 # 8-byte Reload
	decq	%rcx
	imulq	$112, %rcx, %rax
	movq	1312(%rsp,%rax), %rdx
	movq	%rdx, 80(%rsp)                  # 8-byte Spill
	movq	1320(%rsp,%rax), %rdx
	movq	%rdx, 56(%rsp)                  # 8-byte Spill
	movq	1328(%rsp,%rax), %rdx
	movq	%rdx, 120(%rsp)                 # 8-byte Spill
	movq	1336(%rsp,%rax), %r14
	movq	1344(%rsp,%rax), %rdx
	movq	%rdx, 112(%rsp)                 # 8-byte Spill
	movq	1352(%rsp,%rax), %r15
	movq	1360(%rsp,%rax), %rdx
	movq	%rdx, 96(%rsp)                  # 8-byte Spill
	movabsq	$1152921504606846975, %r12      # imm = 0xFFFFFFFFFFFFFFF
	movq	1256(%rsp,%rax), %rbx
	andq	%r12, %rbx
	movq	1272(%rsp,%rax), %rbp
	andq	%r12, %rbp
	movq	1280(%rsp,%rax), %r13
	andq	%r12, %r13
	movq	1288(%rsp,%rax), %rdx
	andq	%r12, %rdx
	movq	%rdx, 104(%rsp)                 # 8-byte Spill
	movq	1296(%rsp,%rax), %rax
	andq	%r12, %rax
	movq	%rax, 88(%rsp)                  # 8-byte Spill
	leaq	432(%rsp), %rdi
	leaq	1784(%rsp), %rsi
	leaq	2120(%rsp), %rdx
	callq	"arms::stem_of"
	movq	432(%rsp), %rax
	andq	%r12, %rax
	addq	%rbx, %rax
	movq	448(%rsp), %rdx
	andq	%r12, %rdx
	addq	%rbp, %rdx
	movq	456(%rsp), %rcx
	andq	%r12, %rcx
	addq	%r13, %rcx
	movq	464(%rsp), %rdi
	andq	%r12, %rdi
	movq	528(%rsp), %rsi
	andl	$536870911, %esi                # imm = 0x1FFFFFFF
	addq	%rdi, %rsi
	movq	520(%rsp), %rdi
	andl	$536870911, %edi                # imm = 0x1FFFFFFF
	movq	112(%rsp), %r8                  # 8-byte Reload
	andl	$536870911, %r8d                # imm = 0x1FFFFFFF
	imulq	%rdi, %r8
	andl	$536870911, %r15d               # imm = 0x1FFFFFFF
	addq	104(%rsp), %r15                 # 8-byte Folded Reload
	movq	488(%rsp), %rdi
	addq	%rsi, %r15
	movq	504(%rsp), %rsi
	andl	$536870911, %edi                # imm = 0x1FFFFFFF
	andl	$536870911, %esi                # imm = 0x1FFFFFFF
	movq	56(%rsp), %r11                  # 8-byte Reload
	andl	$536870911, %r11d               # imm = 0x1FFFFFFF
	andl	$536870911, %r14d               # imm = 0x1FFFFFFF
	addq	%r8, %r15
	addq	%rsi, %rdi
	movq	%rdi, %r8
	imulq	%r14, %r8
	movq	%rsi, %r9
	imulq	%r11, %r9
	addq	%r8, %r9
	movq	496(%rsp), %r8
	andl	$536870911, %r8d                # imm = 0x1FFFFFFF
	movq	120(%rsp), %rbx                 # 8-byte Reload
	andl	$536870911, %ebx                # imm = 0x1FFFFFFF
	movq	%r8, %r10
	imulq	%rbx, %r10
	movq	%rbx, %r13
	addq	%rdx, %r10
	addq	%r9, %r10
	movq	512(%rsp), %r9
	andl	$536870911, %r9d                # imm = 0x1FFFFFFF
	movq	80(%rsp), %rbx                  # 8-byte Reload
	andl	$536870911, %ebx                # imm = 0x1FFFFFFF
	leaq	(%rbx,%r13), %rdx
	imulq	%r9, %rdx
	addq	%r10, %rdx
	imulq	%r13, %rdi
	imulq	%rbx, %rsi
	addq	%rdi, %rsi
	imulq	%r14, %r8
	addq	%rcx, %r8
	addq	%rsi, %r8
	addq	%r11, %r14
	imulq	%r9, %r14
	addq	%r8, %r14
	movq	536(%rsp), %rcx
	andq	472(%rsp), %r12
	andl	$536870911, %ecx                # imm = 0x1FFFFFFF
	movq	96(%rsp), %rsi                  # 8-byte Reload
	andl	$536870911, %esi                # imm = 0x1FFFFFFF
	movq	88(%rsp), %rdi                  # 8-byte Reload
	cmpq	%rdi, %r12
	cmovbeq	%rdi, %r12
	addq	%rsi, %rcx
	incq	%rcx
	cmpq	%rcx, %r12
	cmovbeq	%rcx, %r12
	movq	296(%rsp), %rcx                 # 8-byte Reload
	movq	$0, (%rcx)
	movq	$1, 8(%rcx)
	movq	%rax, 16(%rcx)
	leaq	(%r14,%rdx), %rax
	movq	%rax, 24(%rcx)
	movq	%rdx, 32(%rcx)
	movq	%r14, 40(%rcx)
	movq	%r15, 48(%rcx)
	movq	%r12, 56(%rcx)
.LBB30_3:                               # %then.5
	addq	$3096, %rsp                     # imm = 0xC18
	popq	%rbx
	popq	%r12
	popq	%r13
	popq	%r14
	popq	%r15
	popq	%rbp
	retq
.LBB30_30:                              # %trap.8.i.i
	ud2
.Lfunc_end30:
	.size	"library::product", .Lfunc_end30-"library::product"
                                        # -- End function
	.section	".text.compose::reading::read_in","ax",@progbits
	.p2align	4                               # -- Begin function compose::reading::read_in
	.type	"compose::reading::read_in",@function
"compose::reading::read_in":            # @"compose::reading::read_in"
# %bb.0:                                # %start
	pushq	%rbp
	pushq	%r15
	pushq	%r14
	pushq	%r13
	pushq	%r12
	pushq	%rbx
	subq	$232, %rsp
	movq	%r8, %r15
	movq	%rcx, %r12
	movq	%rdx, %r14
	movq	%rsi, %r13
	movq	%rdi, %rbx
	xorps	%xmm0, %xmm0
	movaps	%xmm0, 208(%rsp)
	movaps	%xmm0, 192(%rsp)
	movaps	%xmm0, 176(%rsp)
	movaps	%xmm0, 160(%rsp)
	movaps	%xmm0, 144(%rsp)
	movaps	%xmm0, 128(%rsp)
	movaps	%xmm0, 112(%rsp)
	movaps	%xmm0, 96(%rsp)
	movaps	%xmm0, 80(%rsp)
	movaps	%xmm0, 64(%rsp)
	movaps	%xmm0, 48(%rsp)
	movq	$0, 224(%rsp)
	movw	$0, 8(%rsp)
	movabsq	$1688849860395010, %rax         # imm = 0x6000000020002
	movq	%rax, (%rsp)
	leaq	48(%rsp), %rdi
	movq	%rsp, %rcx
	movq	%r12, %r8
	movq	%r15, %r9
	callq	"compose::blocks::open_deck"
	movzbl	48(%rsp), %eax
	testb	%al, %al
	je	.LBB31_3
# %bb.1:                                # %arm.2
	leaq	72(%rsp), %rsi
	movb	%al, (%rbx)
.LBB31_2:                               # %common.ret
	movups	56(%rsp), %xmm0
	movups	%xmm0, 8(%rbx)
	addq	$24, %rbx
	movl	$160, %edx
	movq	%rbx, %rdi
	callq	memcpy@PLT
	jmp	.LBB31_15
.LBB31_3:                               # %join.4
	movq	208(%rsp), %rbp
	movq	224(%rsp), %rax
	movq	%rax, 40(%rsp)                  # 8-byte Spill
	xorps	%xmm0, %xmm0
	movaps	%xmm0, 16(%rsp)
	movq	$0, 32(%rsp)
	cmpq	%rbp, %r14
	jae	.LBB31_5
# %bb.4:
	xorl	%r8d, %r8d
	movq	%r14, %rdx
	jmp	.LBB31_10
.LBB31_5:                               # %join.3.i.i
	leaq	4(%rbp), %rax
	cmpq	%r14, %rbp
	jae	.LBB31_6
# %bb.7:                                # %"records::byte_at.exit.i.i.i"
	movzbl	(%r13,%rbp), %ecx
	leaq	1(%rbp), %rdx
	cmpq	%r14, %rdx
	jae	.LBB31_9
# %bb.8:                                # %then.1.i6.i.i.i
	movzbl	(%r13,%rdx), %edx
	shll	$8, %edx
	movzwl	%cx, %ecx
	orl	%edx, %ecx
	jmp	.LBB31_9
.LBB31_6:
	xorl	%ecx, %ecx
.LBB31_9:                               # %"records::le16_at.exit.i.i"
	movq	%r14, %rsi
	subq	%rax, %rsi
	movq	%rax, %rdx
	cmovbq	%r14, %rdx
	movzwl	%cx, %ecx
	cmpq	%rcx, %rsi
	cmovaeq	%rcx, %rsi
	xorl	%r8d, %r8d
	cmpq	%rax, %r14
	cmovaeq	%rsi, %r8
.LBB31_10:                              # %"records::payload_at.exit.i"
	addq	%rdx, %r13
	leaq	16(%rsp), %rdi
	movq	%r12, %rsi
	movq	%r15, %rdx
	movq	%r13, %rcx
	callq	"shelf::check"
	movzbl	16(%rsp), %eax
	testb	%al, %al
	je	.LBB31_12
# %bb.11:                               # %arm.6
	movq	24(%rsp), %rcx
	movq	32(%rsp), %rdx
	leaq	(%rdx,%rdx,2), %rdx
	leaq	(,%rdx,2), %rdx
	addq	%rbp, %rdx
	movb	%al, (%rbx)
	movq	%rcx, 8(%rbx)
	movq	%rdx, 16(%rbx)
	jmp	.LBB31_14
.LBB31_12:                              # %join.7
	movq	40(%rsp), %rax                  # 8-byte Reload
	cmpq	%r14, %rax
	jae	.LBB31_16
# %bb.13:                               # %arm.9
	movb	$1, (%rbx)
	movq	$11, 8(%rbx)
	movq	%rax, 16(%rbx)
.LBB31_14:                              # %arm.9
	xorps	%xmm0, %xmm0
	movups	%xmm0, 24(%rbx)
	movups	%xmm0, 40(%rbx)
	movups	%xmm0, 56(%rbx)
	movups	%xmm0, 72(%rbx)
	movups	%xmm0, 88(%rbx)
	movups	%xmm0, 104(%rbx)
	movups	%xmm0, 120(%rbx)
	movups	%xmm0, 136(%rbx)
	movups	%xmm0, 152(%rbx)
	movups	%xmm0, 168(%rbx)
.LBB31_15:                              # %common.ret
	addq	$232, %rsp
	popq	%rbx
	popq	%r12
	popq	%r13
	popq	%r14
	popq	%r15
	popq	%rbp
	retq
.LBB31_16:                              # %join.10
	leaq	72(%rsp), %rsi
	movb	$0, (%rbx)
	jmp	.LBB31_2
.Lfunc_end31:
	.size	"compose::reading::read_in", .Lfunc_end31-"compose::reading::read_in"
                                        # -- End function
	.section	".text.whole::bonds","ax",@progbits
	.p2align	4                               # -- Begin function whole::bonds
	.type	"whole::bonds",@function
"whole::bonds":                         # @"whole::bonds"
# %bb.0:                                # %start
	pushq	%rbp
	pushq	%r15
	pushq	%r14
	pushq	%r13
	pushq	%r12
	pushq	%rbx
	subq	$3072, %rsp                     # imm = 0xC00
	movq	$0, (%rsp)
	subq	$3072, %rsp                     # imm = 0xC00
	movq	$0, (%rsp)
	subq	$2760, %rsp                     # imm = 0xAC8
	movq	%r8, %r12
	movq	%rcx, %r13
	movq	%rdx, %r14
	movq	%rsi, %rbp
	movq	%rdi, %r15
	xorps	%xmm0, %xmm0
	movaps	%xmm0, 112(%rsp)
	movaps	%xmm0, 128(%rsp)
	movaps	%xmm0, 144(%rsp)
	movaps	%xmm0, 160(%rsp)
	movaps	%xmm0, 176(%rsp)
	movaps	%xmm0, 192(%rsp)
	movaps	%xmm0, 208(%rsp)
	movaps	%xmm0, 224(%rsp)
	movaps	%xmm0, 240(%rsp)
	movaps	%xmm0, 256(%rsp)
	movaps	%xmm0, 272(%rsp)
	movq	$0, 288(%rsp)
	leaq	456(%rsp), %rbx
	movl	$8448, %edx                     # imm = 0x2100
	movq	%rbx, %rdi
	xorl	%esi, %esi
	callq	memset@PLT
	leaq	112(%rsp), %rdi
	movl	$8448, %r8d                     # imm = 0x2100
	movq	%rbp, %rsi
	movq	%r14, %rdx
	movq	%rbx, %rcx
	callq	"compose::reading::read_in"
	movups	120(%rsp), %xmm0
	movaps	%xmm0, 32(%rsp)                 # 16-byte Spill
	leaq	136(%rsp), %rsi
	movzbl	112(%rsp), %ebx
	leaq	296(%rsp), %rdi
	movl	$160, %edx
	callq	memcpy@PLT
	testb	%bl, %bl
	je	.LBB32_2
# %bb.1:                                # %arm.2
	movq	$1, (%r15)
	movaps	32(%rsp), %xmm0                 # 16-byte Reload
	movups	%xmm0, 8(%r15)
	jmp	.LBB32_82
.LBB32_2:                               # %arm.1
	movq	%rbp, 32(%rsp)                  # 8-byte Spill
	movq	%r13, 72(%rsp)                  # 8-byte Spill
	movq	%r12, 24(%rsp)                  # 8-byte Spill
	movq	%r15, 64(%rsp)                  # 8-byte Spill
	movq	440(%rsp), %rax
	movq	448(%rsp), %rcx
	movq	%rcx, 96(%rsp)                  # 8-byte Spill
	movq	%rax, 56(%rsp)                  # 8-byte Spill
	testq	%rax, %rax
	je	.LBB32_22
# %bb.3:                                # %join.5.lr.ph.i
	movq	296(%rsp), %rax
	movq	%rax, 8(%rsp)                   # 8-byte Spill
	movq	432(%rsp), %r15
	leaq	4(%r15), %rax
	movq	%r14, %rbp
	subq	%rax, %rbp
	cmovbq	%r14, %rax
	movq	%rax, 16(%rsp)                  # 8-byte Spill
	movl	$8, %r12d
	xorl	%r13d, %r13d
	xorl	%ebx, %ebx
	jmp	.LBB32_6
	.p2align	4
.LBB32_4:                               # %join.3.i.i
                                        #   in Loop: Header=BB32_6 Depth=1
	addq	$6, %rax
	shrq	$47, %rcx
	andl	$-2, %ecx
	movq	%r14, %rdx
	subq	%rax, %rdx
	cmpq	%rcx, %rdx
	cmovaeq	%rcx, %rdx
	shrl	%edx
	xorl	%ecx, %ecx
	cmpq	%rax, %r14
	cmovaeq	%rdx, %rcx
.LBB32_5:                               # %"assembly::bonds_part.exit.i"
                                        #   in Loop: Header=BB32_6 Depth=1
	movq	24(%rsp), %rdx                  # 8-byte Reload
	cmpq	$1, %rbx
	sbbq	$-1, %r13
	addq	%rcx, %r13
	incq	%rbx
	addq	$6, %r12
	cmpq	%rbx, 56(%rsp)                  # 8-byte Folded Reload
	je	.LBB32_23
.LBB32_6:                               # %join.5.i
                                        # =>This Inner Loop Header: Depth=1
	cmpq	%r15, %r14
	jae	.LBB32_12
# %bb.7:                                #   in Loop: Header=BB32_6 Depth=1
	xorl	%eax, %eax
	movq	%r14, %rcx
	imull	$43691, %eax, %edx              # imm = 0xAAAB
	shrl	$18, %edx
	cmpq	%rdx, %rbx
	ja	.LBB32_18
	jmp	.LBB32_8
	.p2align	4
.LBB32_12:                              # %join.3.i.i.i.i
                                        #   in Loop: Header=BB32_6 Depth=1
	jbe	.LBB32_16
# %bb.13:                               # %"records::byte_at.exit.i.i.i.i.i"
                                        #   in Loop: Header=BB32_6 Depth=1
	movq	32(%rsp), %rcx                  # 8-byte Reload
	movzbl	(%rcx,%r15), %eax
	leaq	1(%r15), %rdx
	cmpq	%r14, %rdx
	jae	.LBB32_17
# %bb.14:                               # %then.1.i6.i.i.i.i.i
                                        #   in Loop: Header=BB32_6 Depth=1
	movzbl	(%rcx,%rdx), %ecx
	shll	$8, %ecx
	movzwl	%ax, %eax
	orl	%ecx, %eax
	jmp	.LBB32_17
	.p2align	4
.LBB32_16:                              #   in Loop: Header=BB32_6 Depth=1
	xorl	%eax, %eax
.LBB32_17:                              # %"records::le16_at.exit.i.i.i.i"
                                        #   in Loop: Header=BB32_6 Depth=1
	movzwl	%ax, %ecx
	cmpq	%rcx, %rbp
	cmovbq	%rbp, %rcx
	xorl	%eax, %eax
	leaq	4(%r15), %rdx
	cmpq	%rdx, %r14
	cmovaeq	%rcx, %rax
	movq	16(%rsp), %rcx                  # 8-byte Reload
	imull	$43691, %eax, %edx              # imm = 0xAAAB
	shrl	$18, %edx
	cmpq	%rdx, %rbx
	ja	.LBB32_18
.LBB32_8:                               # %join.3.i1.i.i.i
                                        #   in Loop: Header=BB32_6 Depth=1
	addq	32(%rsp), %rcx                  # 8-byte Folded Reload
	cmpq	%rax, %r12
	jbe	.LBB32_15
# %bb.9:                                # %join.6.i.i.i.i
                                        #   in Loop: Header=BB32_6 Depth=1
	leaq	-6(%r12), %rdx
	cmpq	%rax, %rdx
	jae	.LBB32_18
# %bb.10:                               # %"records::byte_at.exit.i.i5.i.i.i"
                                        #   in Loop: Header=BB32_6 Depth=1
	movzbl	-6(%rcx,%r12), %edx
	leaq	-5(%r12), %rsi
	cmpq	%rax, %rsi
	jae	.LBB32_19
# %bb.11:                               # %then.1.i6.i.i11.i.i.i
                                        #   in Loop: Header=BB32_6 Depth=1
	movzbl	-5(%rcx,%r12), %eax
	shll	$8, %eax
	movzwl	%dx, %edx
	orl	%eax, %edx
	jmp	.LBB32_19
	.p2align	4
.LBB32_18:                              #   in Loop: Header=BB32_6 Depth=1
	xorl	%edx, %edx
	jmp	.LBB32_19
	.p2align	4
.LBB32_15:                              # %then.4.i.i.i.i
                                        #   in Loop: Header=BB32_6 Depth=1
	movzwl	-6(%rcx,%r12), %edx
.LBB32_19:                              # %"deck::block_at.exit.i"
                                        #   in Loop: Header=BB32_6 Depth=1
	movzwl	%dx, %ecx
	leaq	456(%rsp), %rdi
	leaq	304(%rsp), %rsi
	movq	8(%rsp), %rdx                   # 8-byte Reload
	callq	"assembly::find_block"
	movq	456(%rsp), %rcx
	movl	%ecx, %eax
	shrl	$16, %eax
	cmpq	%rax, %r14
	jae	.LBB32_4
# %bb.20:                               #   in Loop: Header=BB32_6 Depth=1
	xorl	%ecx, %ecx
	jmp	.LBB32_5
.LBB32_22:
	xorl	%r13d, %r13d
	movq	24(%rsp), %rdx                  # 8-byte Reload
.LBB32_23:                              # %"whole::bond_count.exit"
	leaq	(,%r13,2), %rax
	cmpq	%rax, %rdx
	jae	.LBB32_25
# %bb.24:                               # %then.5
	movq	64(%rsp), %rax                  # 8-byte Reload
	movq	$1, (%rax)
	movq	$9, 8(%rax)
	movq	$0, 16(%rax)
	jmp	.LBB32_82
.LBB32_25:                              # %join.7
	leaq	296(%rsp), %rbx
	movq	32(%rsp), %rbp                  # 8-byte Reload
	movq	%rbp, %rdi
	movq	%r14, %rsi
	movq	%rbx, %rdx
	movq	56(%rsp), %r15                  # 8-byte Reload
	movl	%r15d, %ecx
	callq	"whole::start_of"
	movq	%rax, 80(%rsp)                  # 8-byte Spill
	leaq	112(%rsp), %rdi
	movl	$144, %edx
	movq	%rbx, %rsi
	callq	memcpy@PLT
	testq	%r15, %r15
	je	.LBB32_81
# %bb.26:                               # %join.5.lr.ph.i7
	leaq	7(%rbp), %rax
	movq	%rax, 88(%rsp)                  # 8-byte Spill
	xorl	%ebx, %ebx
	xorl	%r12d, %r12d
	jmp	.LBB32_28
	.p2align	4
.LBB32_27:                              # %"whole::put_bond.exit.i43.i.i"
                                        #   in Loop: Header=BB32_28 Depth=1
	addq	$2, %r12
	movq	32(%rsp), %rbp                  # 8-byte Reload
	incq	%rbx
	cmpq	%r15, %rbx
	je	.LBB32_81
.LBB32_28:                              # %join.5.i8
                                        # =>This Loop Header: Depth=1
                                        #     Child Loop BB32_63 Depth 2
	movq	%r12, 8(%rsp)                   # 8-byte Spill
	leaq	456(%rsp), %rdi
	leaq	296(%rsp), %rsi
	movl	$144, %edx
	callq	memcpy@PLT
	movq	%r15, 600(%rsp)
	movq	96(%rsp), %rax                  # 8-byte Reload
	movq	%rax, 608(%rsp)
	movq	592(%rsp), %r15
	cmpq	%r15, %r14
	jae	.LBB32_30
# %bb.29:                               #   in Loop: Header=BB32_28 Depth=1
	xorl	%ecx, %ecx
	movq	%r14, %rax
	jmp	.LBB32_35
	.p2align	4
.LBB32_30:                              # %join.3.i.i.i.i.i
                                        #   in Loop: Header=BB32_28 Depth=1
	jbe	.LBB32_33
# %bb.31:                               # %"records::byte_at.exit.i.i.i.i.i.i"
                                        #   in Loop: Header=BB32_28 Depth=1
	movzbl	(%rbp,%r15), %ecx
	leaq	1(%r15), %rax
	cmpq	%r14, %rax
	jae	.LBB32_34
# %bb.32:                               # %then.1.i6.i.i.i.i.i.i
                                        #   in Loop: Header=BB32_28 Depth=1
	movzbl	(%rbp,%rax), %eax
	shll	$8, %eax
	movzwl	%cx, %ecx
	orl	%eax, %ecx
	jmp	.LBB32_34
	.p2align	4
.LBB32_33:                              #   in Loop: Header=BB32_28 Depth=1
	xorl	%ecx, %ecx
.LBB32_34:                              # %"records::le16_at.exit.i.i.i.i.i"
                                        #   in Loop: Header=BB32_28 Depth=1
	leaq	4(%r15), %rdx
	movq	%r14, %rsi
	subq	%rdx, %rsi
	movq	%rdx, %rax
	cmovbq	%r14, %rax
	movzwl	%cx, %ecx
	cmpq	%rcx, %rsi
	cmovaeq	%rcx, %rsi
	xorl	%ecx, %ecx
	cmpq	%rdx, %r14
	cmovaeq	%rsi, %rcx
.LBB32_35:                              # %"records::payload_at.exit.i.i.i.i"
                                        #   in Loop: Header=BB32_28 Depth=1
	movq	456(%rsp), %rdx
	imull	$43691, %ecx, %esi              # imm = 0xAAAB
	shrl	$18, %esi
	cmpq	%rsi, %rbx
	jbe	.LBB32_37
.LBB32_42:                              #   in Loop: Header=BB32_28 Depth=1
	xorl	%esi, %esi
	jmp	.LBB32_43
	.p2align	4
.LBB32_37:                              # %join.3.i1.i.i.i.i
                                        #   in Loop: Header=BB32_28 Depth=1
	addq	%rbp, %rax
	leaq	(%rbx,%rbx), %rsi
	leaq	(%rsi,%rsi,2), %rdi
	addq	$2, %rdi
	leaq	(%rsi,%rsi,2), %r8
	addq	$8, %r8
	cmpq	%rcx, %r8
	jbe	.LBB32_41
# %bb.38:                               # %join.6.i.i.i.i.i
                                        #   in Loop: Header=BB32_28 Depth=1
	cmpq	%rcx, %rdi
	jae	.LBB32_42
# %bb.39:                               # %"records::byte_at.exit.i.i5.i.i.i.i"
                                        #   in Loop: Header=BB32_28 Depth=1
	leaq	(%rsi,%rsi,2), %rdi
	movzbl	2(%rax,%rdi), %esi
	addq	$3, %rdi
	cmpq	%rcx, %rdi
	jae	.LBB32_43
# %bb.40:                               # %then.1.i6.i.i11.i.i.i.i
                                        #   in Loop: Header=BB32_28 Depth=1
	movzbl	(%rax,%rdi), %eax
	shll	$8, %eax
	movzwl	%si, %esi
	orl	%eax, %esi
	jmp	.LBB32_43
	.p2align	4
.LBB32_41:                              # %then.4.i.i.i.i.i
                                        #   in Loop: Header=BB32_28 Depth=1
	movzwl	(%rax,%rdi), %esi
.LBB32_43:                              # %"deck::block_at.exit.i.i"
                                        #   in Loop: Header=BB32_28 Depth=1
	movzwl	%si, %ecx
	leaq	104(%rsp), %rdi
	leaq	120(%rsp), %rsi
	callq	"assembly::find_block"
	movq	104(%rsp), %rax
	movl	%eax, %ebp
	shrl	$16, %ebp
	cmpq	%rbp, %r14
	jb	.LBB32_45
# %bb.44:                               # %join.3.i.i.i
                                        #   in Loop: Header=BB32_28 Depth=1
	leaq	6(%rbp), %rcx
	shrq	$47, %rax
	andl	$-2, %eax
	movq	%r14, %r12
	subq	%rcx, %r12
	cmpq	%rax, %r12
	cmovaeq	%rax, %r12
	cmpq	%rcx, %r14
	jae	.LBB32_60
.LBB32_45:                              # %"assembly::bonds_part.exit.thread.i.i"
                                        #   in Loop: Header=BB32_28 Depth=1
	leaq	456(%rsp), %rdx
	movq	32(%rsp), %rbp                  # 8-byte Reload
	movq	%rbp, %rdi
	movq	%r14, %rsi
	movl	%ebx, %ecx
	callq	"whole::start_of"
	xorl	%r12d, %r12d
.LBB32_46:                              # %"whole::put_block.exit.i.i"
                                        #   in Loop: Header=BB32_28 Depth=1
	movq	8(%rsp), %r10                   # 8-byte Reload
	andq	$-2, %r12
	addq	%r10, %r12
	testq	%rbx, %rbx
	je	.LBB32_56
.LBB32_48:                              # %join.3.i10.i.i
                                        #   in Loop: Header=BB32_28 Depth=1
	cmpq	%r15, %r14
	jae	.LBB32_57
# %bb.49:                               #   in Loop: Header=BB32_28 Depth=1
	xorl	%edx, %edx
	movq	%r14, %rax
	imull	$43691, %edx, %ecx              # imm = 0xAAAB
	shrl	$18, %ecx
	cmpq	%rcx, %rbx
	ja	.LBB32_70
.LBB32_50:                              # %join.3.i1.i.i33.i.i
                                        #   in Loop: Header=BB32_28 Depth=1
	addq	%rbp, %rax
	leaq	(%rbx,%rbx), %rcx
	leaq	(%rcx,%rcx,2), %rsi
	leaq	(%rcx,%rcx,2), %rcx
	addq	$8, %rcx
	cmpq	%rdx, %rcx
	jbe	.LBB32_67
# %bb.51:                               # %join.6.i.i.i52.i.i
                                        #   in Loop: Header=BB32_28 Depth=1
	leaq	4(%rsi), %rcx
	cmpq	%rdx, %rcx
	jae	.LBB32_79
# %bb.52:                               # %"records::byte_at.exit.i46.i.i.i.i.i"
                                        #   in Loop: Header=BB32_28 Depth=1
	movzbl	4(%rax,%rsi), %ecx
	leaq	5(%rsi), %rdi
	cmpq	%rdx, %rdi
	jae	.LBB32_54
# %bb.53:                               # %then.1.i6.i52.i.i.i.i.i
                                        #   in Loop: Header=BB32_28 Depth=1
	movzbl	(%rax,%rdi), %edi
	shll	$8, %edi
	movzwl	%cx, %ecx
	orl	%edi, %ecx
.LBB32_54:                              # %"records::le16_at.exit55.i.i.i.i.i"
                                        #   in Loop: Header=BB32_28 Depth=1
	addq	$6, %rsi
	cmpq	%rdx, %rsi
	jae	.LBB32_71
	jmp	.LBB32_55
	.p2align	4
.LBB32_57:                              # %join.3.i.i.i14.i.i
                                        #   in Loop: Header=BB32_28 Depth=1
	jbe	.LBB32_68
# %bb.58:                               # %"records::byte_at.exit.i.i.i.i53.i.i"
                                        #   in Loop: Header=BB32_28 Depth=1
	movzbl	(%rbp,%r15), %ecx
	leaq	1(%r15), %rax
	cmpq	%r14, %rax
	jae	.LBB32_69
# %bb.59:                               # %then.1.i6.i.i.i.i59.i.i
                                        #   in Loop: Header=BB32_28 Depth=1
	movzbl	(%rbp,%rax), %eax
	shll	$8, %eax
	movzwl	%cx, %ecx
	orl	%eax, %ecx
	jmp	.LBB32_69
	.p2align	4
.LBB32_60:                              # %"assembly::bonds_part.exit.i.i"
                                        #   in Loop: Header=BB32_28 Depth=1
	leaq	456(%rsp), %rdx
	movq	32(%rsp), %rdi                  # 8-byte Reload
	movq	%r14, %rsi
	movl	%ebx, %ecx
	callq	"whole::start_of"
	cmpq	$2, %r12
	jb	.LBB32_77
# %bb.61:                               # %join.5.i.i.i.preheader
                                        #   in Loop: Header=BB32_28 Depth=1
	movq	8(%rsp), %r10                   # 8-byte Reload
	leaq	1(%r10), %rcx
	addq	88(%rsp), %rbp                  # 8-byte Folded Reload
	movq	%r12, %rdx
	movq	24(%rsp), %r8                   # 8-byte Reload
	movq	72(%rsp), %r9                   # 8-byte Reload
	jmp	.LBB32_63
	.p2align	4
.LBB32_62:                              # %"whole::put_bond.exit.i.i.i"
                                        #   in Loop: Header=BB32_63 Depth=2
	addq	$-2, %rdx
	addq	$2, %rcx
	addq	$2, %rbp
	cmpq	$1, %rdx
	jbe	.LBB32_78
.LBB32_63:                              # %join.5.i.i.i
                                        #   Parent Loop BB32_28 Depth=1
                                        # =>  This Inner Loop Header: Depth=2
	movzbl	(%rbp), %esi
	leaq	-1(%rcx), %rdi
	cmpq	%rdi, %r8
	jbe	.LBB32_65
# %bb.64:                               # %join.3.i.i.i8.i.i
                                        #   in Loop: Header=BB32_63 Depth=2
	movzbl	-1(%rbp), %edi
	addl	%eax, %edi
	movw	%di, -2(%r9,%rcx,2)
.LBB32_65:                              # %"whole::put.exit.i.i.i.i"
                                        #   in Loop: Header=BB32_63 Depth=2
	cmpq	%rcx, %r8
	jbe	.LBB32_62
# %bb.66:                               # %join.3.i4.i.i.i.i
                                        #   in Loop: Header=BB32_63 Depth=2
	addq	%rax, %rsi
	movw	%si, (%r9,%rcx,2)
	jmp	.LBB32_62
.LBB32_67:                              # %then.4.i.i.i37.i.i
                                        #   in Loop: Header=BB32_28 Depth=1
	movzwl	4(%rax,%rsi), %ecx
	movzbl	6(%rax,%rsi), %edx
	movq	%rdx, 16(%rsp)                  # 8-byte Spill
	movzbl	7(%rax,%rsi), %eax
	movq	%rax, 8(%rsp)                   # 8-byte Spill
	jmp	.LBB32_73
.LBB32_68:                              #   in Loop: Header=BB32_28 Depth=1
	xorl	%ecx, %ecx
.LBB32_69:                              # %"records::le16_at.exit.i.i.i17.i.i"
                                        #   in Loop: Header=BB32_28 Depth=1
	addq	$4, %r15
	movq	%r14, %rsi
	subq	%r15, %rsi
	movq	%r15, %rax
	cmovbq	%r14, %rax
	movzwl	%cx, %ecx
	cmpq	%rcx, %rsi
	cmovaeq	%rcx, %rsi
	xorl	%edx, %edx
	cmpq	%r15, %r14
	cmovaeq	%rsi, %rdx
	imull	$43691, %edx, %ecx              # imm = 0xAAAB
	shrl	$18, %ecx
	cmpq	%rcx, %rbx
	jbe	.LBB32_50
.LBB32_70:                              #   in Loop: Header=BB32_28 Depth=1
	xorl	%ecx, %ecx
.LBB32_71:                              # %"deck::placement.exit.i.i.i"
                                        #   in Loop: Header=BB32_28 Depth=1
	movq	$0, 16(%rsp)                    # 8-byte Folded Spill
.LBB32_72:                              # %"deck::placement.exit.i.i.i"
                                        #   in Loop: Header=BB32_28 Depth=1
	movq	$0, 8(%rsp)                     # 8-byte Folded Spill
.LBB32_73:                              # %"deck::placement.exit.i.i.i"
                                        #   in Loop: Header=BB32_28 Depth=1
	decl	%ecx
	leaq	456(%rsp), %r15
	movq	%rbp, %rdi
	movq	%r14, %rsi
	movq	%r15, %rdx
                                        # kill: def $ecx killed $ecx killed $rcx
	callq	"whole::start_of"
	movq	%rbp, %rdi
	movq	%rax, %rbp
	movq	%r14, %rsi
	movq	%r15, %rdx
	movl	%ebx, %ecx
	callq	"whole::start_of"
	movq	24(%rsp), %rdx                  # 8-byte Reload
	cmpq	%r12, %rdx
	movq	72(%rsp), %rsi                  # 8-byte Reload
	jbe	.LBB32_75
# %bb.74:                               # %join.3.i.i6.i.i.i
                                        #   in Loop: Header=BB32_28 Depth=1
	movzbl	16(%rsp), %ecx                  # 1-byte Folded Reload
	addl	%ecx, %ebp
	movw	%bp, (%rsi,%r12,2)
.LBB32_75:                              # %"whole::put.exit.i.i40.i.i"
                                        #   in Loop: Header=BB32_28 Depth=1
	leaq	1(%r12), %rcx
	cmpq	%rcx, %rdx
	movq	56(%rsp), %r15                  # 8-byte Reload
	jbe	.LBB32_27
# %bb.76:                               # %join.3.i4.i.i44.i.i
                                        #   in Loop: Header=BB32_28 Depth=1
	addq	8(%rsp), %rax                   # 8-byte Folded Reload
	movw	%ax, 2(%rsi,%r12,2)
	jmp	.LBB32_27
.LBB32_77:                              #   in Loop: Header=BB32_28 Depth=1
	movq	32(%rsp), %rbp                  # 8-byte Reload
	jmp	.LBB32_46
.LBB32_78:                              #   in Loop: Header=BB32_28 Depth=1
	movq	32(%rsp), %rbp                  # 8-byte Reload
	andq	$-2, %r12
	addq	%r10, %r12
	testq	%rbx, %rbx
	jne	.LBB32_48
	.p2align	4
.LBB32_56:                              #   in Loop: Header=BB32_28 Depth=1
	movq	56(%rsp), %r15                  # 8-byte Reload
	incq	%rbx
	cmpq	%r15, %rbx
	jne	.LBB32_28
	jmp	.LBB32_81
.LBB32_79:                              #   in Loop: Header=BB32_28 Depth=1
	xorl	%ecx, %ecx
	addq	$6, %rsi
	cmpq	%rdx, %rsi
	jae	.LBB32_71
.LBB32_55:                              # %then.1.i.i.i.i.i.i
                                        #   in Loop: Header=BB32_28 Depth=1
	movzbl	(%rax,%rsi), %eax
	movq	%rax, 16(%rsp)                  # 8-byte Spill
	jmp	.LBB32_72
.LBB32_81:                              # %"whole::put_all.exit"
	movq	64(%rsp), %rax                  # 8-byte Reload
	movq	$0, (%rax)
	movq	80(%rsp), %rcx                  # 8-byte Reload
	movq	%rcx, 8(%rax)
	movq	%r13, 16(%rax)
.LBB32_82:                              # %common.ret
	addq	$8904, %rsp                     # imm = 0x22C8
	popq	%rbx
	popq	%r12
	popq	%r13
	popq	%r14
	popq	%r15
	popq	%rbp
	retq
.Lfunc_end32:
	.size	"whole::bonds", .Lfunc_end32-"whole::bonds"
                                        # -- End function
	.section	".text.whole::start_of","ax",@progbits
	.p2align	4                               # -- Begin function whole::start_of
	.type	"whole::start_of",@function
"whole::start_of":                      # @"whole::start_of"
# %bb.0:                                # %start
	pushq	%rbp
	pushq	%r15
	pushq	%r14
	pushq	%r13
	pushq	%r12
	pushq	%rbx
	subq	$168, %rsp
	testw	%cx, %cx
	je	.LBB33_4
# %bb.1:                                # %join.5.lr.ph
	movq	%rdx, %rbx
	movq	(%rdx), %r14
	movzwl	%cx, %r12d
	movq	136(%rdx), %rdx
	addq	$8, %rbx
	cmpq	%rdx, %rsi
	jae	.LBB33_5
# %bb.2:                                # %join.5.us.preheader
	xorl	%r15d, %r15d
	.p2align	4
.LBB33_3:                               # %join.5.us
                                        # =>This Inner Loop Header: Depth=1
	movups	112(%rbx), %xmm0
	movaps	%xmm0, 144(%rsp)
	movups	96(%rbx), %xmm0
	movaps	%xmm0, 128(%rsp)
	movups	80(%rbx), %xmm0
	movaps	%xmm0, 112(%rsp)
	movups	64(%rbx), %xmm0
	movaps	%xmm0, 96(%rsp)
	movups	(%rbx), %xmm0
	movups	16(%rbx), %xmm1
	movups	32(%rbx), %xmm2
	movups	48(%rbx), %xmm3
	movaps	%xmm3, 80(%rsp)
	movaps	%xmm2, 64(%rsp)
	movaps	%xmm1, 48(%rsp)
	movaps	%xmm0, 32(%rsp)
	movq	%rsp, %rdi
	leaq	32(%rsp), %rsi
	movq	%r14, %rdx
	xorl	%ecx, %ecx
	callq	"assembly::find_block"
	movzwl	4(%rsp), %eax
	addq	%rax, %r15
	decq	%r12
	jne	.LBB33_3
	jmp	.LBB33_19
.LBB33_4:
	xorl	%r15d, %r15d
	jmp	.LBB33_19
.LBB33_5:                               # %join.5.lr.ph.split
	leaq	4(%rdx), %rax
	cmpq	%rax, %rsi
	movq	%rax, %r9
	cmovbq	%rsi, %r9
	cmpq	%rsi, %rdx
	jae	.LBB33_17
# %bb.6:                                # %join.5.lr.ph.split.split.us
	leaq	1(%rdx), %r8
	movq	%rsi, %rcx
	subq	%rax, %rcx
	addq	%rdi, %r9
	movq	%r9, 8(%rsp)                    # 8-byte Spill
	movzbl	(%rdi,%rdx), %edx
	cmpq	%rsi, %r8
	jae	.LBB33_20
# %bb.7:                                # %join.5.lr.ph.split.split.us.split.us
	movzbl	(%rdi,%r8), %edi
	shll	$8, %edi
	orq	%rdx, %rdi
	cmpq	%rdi, %rcx
	cmovbq	%rcx, %rdi
	xorl	%r15d, %r15d
	cmpq	%rax, %rsi
	cmovbq	%r15, %rdi
	imull	$43691, %edi, %eax              # imm = 0xAAAB
	shrl	$18, %eax
	movq	%rax, 16(%rsp)                  # 8-byte Spill
	movl	$8, %r13d
	xorl	%ebp, %ebp
	movq	%rdi, 24(%rsp)                  # 8-byte Spill
	jmp	.LBB33_10
	.p2align	4
.LBB33_8:                               #   in Loop: Header=BB33_10 Depth=1
	xorl	%eax, %eax
.LBB33_9:                               # %"deck::block_at.exit.us33.us"
                                        #   in Loop: Header=BB33_10 Depth=1
	movups	112(%rbx), %xmm0
	movaps	%xmm0, 144(%rsp)
	movups	96(%rbx), %xmm0
	movaps	%xmm0, 128(%rsp)
	movups	80(%rbx), %xmm0
	movaps	%xmm0, 112(%rsp)
	movups	64(%rbx), %xmm0
	movaps	%xmm0, 96(%rsp)
	movups	(%rbx), %xmm0
	movups	16(%rbx), %xmm1
	movups	32(%rbx), %xmm2
	movups	48(%rbx), %xmm3
	movaps	%xmm3, 80(%rsp)
	movaps	%xmm2, 64(%rsp)
	movaps	%xmm1, 48(%rsp)
	movaps	%xmm0, 32(%rsp)
	movzwl	%ax, %ecx
	movq	%rsp, %rdi
	leaq	32(%rsp), %rsi
	movq	%r14, %rdx
	callq	"assembly::find_block"
	movzwl	4(%rsp), %eax
	addq	%rax, %r15
	incq	%rbp
	addq	$6, %r13
	cmpq	%rbp, %r12
	movq	24(%rsp), %rdi                  # 8-byte Reload
	je	.LBB33_19
.LBB33_10:                              # %join.5.us7.us
                                        # =>This Inner Loop Header: Depth=1
	cmpq	16(%rsp), %rbp                  # 8-byte Folded Reload
	ja	.LBB33_8
# %bb.11:                               # %join.3.i1.i.i.us14.us
                                        #   in Loop: Header=BB33_10 Depth=1
	cmpq	%rdi, %r13
	jbe	.LBB33_15
# %bb.12:                               # %join.6.i.i.i.us22.us
                                        #   in Loop: Header=BB33_10 Depth=1
	leaq	-6(%r13), %rax
	cmpq	%rdi, %rax
	jae	.LBB33_8
# %bb.13:                               # %"records::byte_at.exit.i.i5.i.i.us24.us"
                                        #   in Loop: Header=BB33_10 Depth=1
	movq	8(%rsp), %rdx                   # 8-byte Reload
	movzbl	-6(%rdx,%r13), %eax
	leaq	-5(%r13), %rcx
	cmpq	%rdi, %rcx
	jae	.LBB33_9
# %bb.14:                               # %then.1.i6.i.i11.i.i.us30.us
                                        #   in Loop: Header=BB33_10 Depth=1
	movzbl	-5(%rdx,%r13), %ecx
	shll	$8, %ecx
	movzwl	%ax, %eax
	orl	%ecx, %eax
	jmp	.LBB33_9
	.p2align	4
.LBB33_15:                              # %then.4.i.i.i.us19.us
                                        #   in Loop: Header=BB33_10 Depth=1
	movq	8(%rsp), %rax                   # 8-byte Reload
	movzwl	-6(%rax,%r13), %eax
	jmp	.LBB33_9
.LBB33_17:                              # %join.5.preheader
	xorl	%r15d, %r15d
	.p2align	4
.LBB33_18:                              # %join.5
                                        # =>This Inner Loop Header: Depth=1
	movups	112(%rbx), %xmm0
	movaps	%xmm0, 144(%rsp)
	movups	96(%rbx), %xmm0
	movaps	%xmm0, 128(%rsp)
	movups	80(%rbx), %xmm0
	movaps	%xmm0, 112(%rsp)
	movups	64(%rbx), %xmm0
	movaps	%xmm0, 96(%rsp)
	movups	(%rbx), %xmm0
	movups	16(%rbx), %xmm1
	movups	32(%rbx), %xmm2
	movups	48(%rbx), %xmm3
	movaps	%xmm3, 80(%rsp)
	movaps	%xmm2, 64(%rsp)
	movaps	%xmm1, 48(%rsp)
	movaps	%xmm0, 32(%rsp)
	movq	%rsp, %rdi
	leaq	32(%rsp), %rsi
	movq	%r14, %rdx
	xorl	%ecx, %ecx
	callq	"assembly::find_block"
	movzwl	4(%rsp), %eax
	addq	%rax, %r15
	decq	%r12
	jne	.LBB33_18
.LBB33_19:                              # %after.1
	movq	%r15, %rax
	addq	$168, %rsp
	popq	%rbx
	popq	%r12
	popq	%r13
	popq	%r14
	popq	%r15
	popq	%rbp
	retq
.LBB33_20:                              # %join.5.lr.ph.split.split.us.split
	cmpq	%rdx, %rcx
	cmovbq	%rcx, %rdx
	xorl	%r15d, %r15d
	cmpq	%rax, %rsi
	cmovbq	%r15, %rdx
	movq	%rdx, 16(%rsp)                  # 8-byte Spill
	imull	$171, %edx, %eax
	movzwl	%ax, %eax
	shrl	$10, %eax
	movq	%rax, 24(%rsp)                  # 8-byte Spill
	movl	$8, %ebp
	xorl	%r13d, %r13d
	jmp	.LBB33_23
	.p2align	4
.LBB33_21:                              #   in Loop: Header=BB33_23 Depth=1
	xorl	%eax, %eax
.LBB33_22:                              # %"deck::block_at.exit.us33"
                                        #   in Loop: Header=BB33_23 Depth=1
	movups	112(%rbx), %xmm0
	movaps	%xmm0, 144(%rsp)
	movups	96(%rbx), %xmm0
	movaps	%xmm0, 128(%rsp)
	movups	80(%rbx), %xmm0
	movaps	%xmm0, 112(%rsp)
	movups	64(%rbx), %xmm0
	movaps	%xmm0, 96(%rsp)
	movups	(%rbx), %xmm0
	movups	16(%rbx), %xmm1
	movups	32(%rbx), %xmm2
	movups	48(%rbx), %xmm3
	movaps	%xmm3, 80(%rsp)
	movaps	%xmm2, 64(%rsp)
	movaps	%xmm1, 48(%rsp)
	movaps	%xmm0, 32(%rsp)
	movzwl	%ax, %ecx
	movq	%rsp, %rdi
	leaq	32(%rsp), %rsi
	movq	%r14, %rdx
	callq	"assembly::find_block"
	movzwl	4(%rsp), %eax
	addq	%rax, %r15
	incq	%r13
	addq	$6, %rbp
	cmpq	%r13, %r12
	je	.LBB33_19
.LBB33_23:                              # %join.5.us7
                                        # =>This Inner Loop Header: Depth=1
	cmpq	24(%rsp), %r13                  # 8-byte Folded Reload
	ja	.LBB33_21
# %bb.24:                               # %join.3.i1.i.i.us14
                                        #   in Loop: Header=BB33_23 Depth=1
	movq	16(%rsp), %rsi                  # 8-byte Reload
	cmpq	%rsi, %rbp
	jbe	.LBB33_28
# %bb.25:                               # %join.6.i.i.i.us22
                                        #   in Loop: Header=BB33_23 Depth=1
	leaq	-6(%rbp), %rax
	cmpq	%rsi, %rax
	jae	.LBB33_21
# %bb.26:                               # %"records::byte_at.exit.i.i5.i.i.us24"
                                        #   in Loop: Header=BB33_23 Depth=1
	movq	8(%rsp), %rdx                   # 8-byte Reload
	movzbl	-6(%rdx,%rbp), %eax
	leaq	-5(%rbp), %rcx
	cmpq	%rsi, %rcx
	jae	.LBB33_22
# %bb.27:                               # %then.1.i6.i.i11.i.i.us30
                                        #   in Loop: Header=BB33_23 Depth=1
	movzbl	-5(%rdx,%rbp), %ecx
	shll	$8, %ecx
	movzwl	%ax, %eax
	orl	%ecx, %eax
	jmp	.LBB33_22
	.p2align	4
.LBB33_28:                              # %then.4.i.i.i.us19
                                        #   in Loop: Header=BB33_23 Depth=1
	movq	8(%rsp), %rax                   # 8-byte Reload
	movzwl	-6(%rax,%rbp), %eax
	jmp	.LBB33_22
.Lfunc_end33:
	.size	"whole::start_of", .Lfunc_end33-"whole::start_of"
                                        # -- End function
	.section	".text.compose::distance::distance_in","ax",@progbits
	.p2align	4                               # -- Begin function compose::distance::distance_in
	.type	"compose::distance::distance_in",@function
"compose::distance::distance_in":       # @"compose::distance::distance_in"
# %bb.0:                                # %start
	pushq	%rbp
	pushq	%r15
	pushq	%r14
	pushq	%r13
	pushq	%r12
	pushq	%rbx
	subq	$232, %rsp
	movq	%r9, %r13
	movq	%r8, %r14
	movq	%rcx, %rbp
	movq	%rdx, %rbx
	movq	%rsi, %r15
	movq	%rdi, %r12
	movq	304(%rsp), %r8
	movq	296(%rsp), %rcx
	xorps	%xmm0, %xmm0
	movaps	%xmm0, 208(%rsp)
	movaps	%xmm0, 192(%rsp)
	movaps	%xmm0, 176(%rsp)
	movaps	%xmm0, 160(%rsp)
	movaps	%xmm0, 144(%rsp)
	movaps	%xmm0, 128(%rsp)
	movaps	%xmm0, 112(%rsp)
	movaps	%xmm0, 96(%rsp)
	movaps	%xmm0, 80(%rsp)
	movaps	%xmm0, 64(%rsp)
	movaps	%xmm0, 48(%rsp)
	movq	$0, 224(%rsp)
	leaq	48(%rsp), %rdi
	callq	"compose::reading::read_in"
	cmpb	$0, 48(%rsp)
	je	.LBB34_2
# %bb.1:                                # %arm.2
	movq	$1, (%r12)
	movups	56(%rsp), %xmm0
	movups	%xmm0, 8(%r12)
	jmp	.LBB34_40
.LBB34_2:                               # %arm.1
	movq	%r12, 24(%rsp)                  # 8-byte Spill
	movq	%r15, 16(%rsp)                  # 8-byte Spill
	movq	%r14, 40(%rsp)                  # 8-byte Spill
	movq	216(%rsp), %r14
	decq	%rbp
	cmpq	%r14, %rbp
	jae	.LBB34_38
# %bb.3:                                # %join.3.i
	movq	208(%rsp), %r15
	movq	%rbx, %rdi
	cmpq	%r15, %rbx
	jae	.LBB34_5
# %bb.4:
	xorl	%ecx, %ecx
	movq	%rdi, %rax
	jmp	.LBB34_10
.LBB34_5:                               # %join.3.i.i.i.i
	leaq	4(%r15), %rdx
	cmpq	%rdi, %r15
	jae	.LBB34_8
# %bb.6:                                # %"records::byte_at.exit.i.i.i.i.i"
	movq	16(%rsp), %rsi                  # 8-byte Reload
	movzbl	(%rsi,%r15), %ecx
	leaq	1(%r15), %rax
	cmpq	%rdi, %rax
	jae	.LBB34_9
# %bb.7:                                # %then.1.i6.i.i.i.i.i
	movzbl	(%rsi,%rax), %eax
	shll	$8, %eax
	movzwl	%cx, %ecx
	orl	%eax, %ecx
	jmp	.LBB34_9
.LBB34_8:
	xorl	%ecx, %ecx
.LBB34_9:                               # %"records::le16_at.exit.i.i.i.i"
	movq	%rdi, %rsi
	subq	%rdx, %rsi
	movq	%rdx, %rax
	cmovbq	%rdi, %rax
	movzwl	%cx, %ecx
	cmpq	%rcx, %rsi
	cmovaeq	%rcx, %rsi
	xorl	%ecx, %ecx
	cmpq	%rdx, %rdi
	cmovaeq	%rsi, %rcx
.LBB34_10:                              # %"records::payload_at.exit.i.i.i"
	movq	72(%rsp), %rdx
	leaq	80(%rsp), %rsi
	imull	$43691, %ecx, %edi              # imm = 0xAAAB
	shrl	$18, %edi
	cmpq	%rdi, %rbp
	jbe	.LBB34_12
.LBB34_17:
	xorl	%edi, %edi
	jmp	.LBB34_18
.LBB34_12:                              # %join.3.i1.i.i.i
	addq	16(%rsp), %rax                  # 8-byte Folded Reload
	leaq	(,%rbp,2), %r9
	leaq	(%r9,%r9,2), %r10
	addq	$2, %r10
	leaq	(%r9,%r9,2), %rdi
	addq	$8, %rdi
	cmpq	%rcx, %rdi
	jbe	.LBB34_16
# %bb.13:                               # %join.6.i.i.i.i
	cmpq	%rcx, %r10
	jae	.LBB34_17
# %bb.14:                               # %"records::byte_at.exit.i.i5.i.i.i"
	leaq	(%r9,%r9,2), %r9
	movzbl	2(%rax,%r9), %edi
	addq	$3, %r9
	cmpq	%rcx, %r9
	jae	.LBB34_18
# %bb.15:                               # %then.1.i6.i.i11.i.i.i
	movzbl	(%rax,%r9), %eax
	shll	$8, %eax
	movzwl	%di, %edi
	orl	%eax, %edi
	jmp	.LBB34_18
.LBB34_16:                              # %then.4.i.i.i.i
	movzwl	(%rax,%r10), %edi
.LBB34_18:                              # %"deck::is_missing.exit"
	movzwl	%di, %ecx
	leaq	32(%rsp), %rdi
	movq	%rdx, %r12
	callq	"assembly::find_block"
	movzwl	36(%rsp), %eax
	movq	40(%rsp), %rcx                  # 8-byte Reload
	decq	%rcx
	cmpq	%rax, %rcx
	jae	.LBB34_38
# %bb.19:                               # %else.8
	movq	%r13, %rax
	decq	%rax
	cmpq	%r14, %rax
	jae	.LBB34_38
# %bb.20:                               # %join.3.i17
	movq	%rax, %r13
	movq	%rbx, %r9
	cmpq	%r15, %rbx
	jae	.LBB34_22
# %bb.21:
	xorl	%ecx, %ecx
	movq	%r9, %rax
	movq	%r13, %rdi
	jmp	.LBB34_27
.LBB34_22:                              # %join.3.i.i.i.i19
	leaq	4(%r15), %rdx
	cmpq	%r9, %r15
	jae	.LBB34_25
# %bb.23:                               # %"records::byte_at.exit.i.i.i.i.i63"
	movq	16(%rsp), %rsi                  # 8-byte Reload
	movzbl	(%rsi,%r15), %ecx
	leaq	1(%r15), %rax
	cmpq	%r9, %rax
	jae	.LBB34_26
# %bb.24:                               # %then.1.i6.i.i.i.i.i69
	movzbl	(%rsi,%rax), %eax
	shll	$8, %eax
	movzwl	%cx, %ecx
	orl	%eax, %ecx
	jmp	.LBB34_26
.LBB34_25:
	xorl	%ecx, %ecx
.LBB34_26:                              # %"records::le16_at.exit.i.i.i.i22"
	movq	%r13, %rdi
	movq	%r9, %rsi
	subq	%rdx, %rsi
	movq	%rdx, %rax
	cmovbq	%r9, %rax
	movzwl	%cx, %ecx
	cmpq	%rcx, %rsi
	cmovaeq	%rcx, %rsi
	xorl	%ecx, %ecx
	cmpq	%rdx, %r9
	cmovaeq	%rsi, %rcx
.LBB34_27:                              # %"records::payload_at.exit.i.i.i30"
	movq	288(%rsp), %r14
	imull	$43691, %ecx, %edx              # imm = 0xAAAB
	shrl	$18, %edx
	cmpq	%rdx, %rdi
	jbe	.LBB34_29
.LBB34_34:
	xorl	%edi, %edi
	jmp	.LBB34_35
.LBB34_29:                              # %join.3.i1.i.i.i38
	addq	16(%rsp), %rax                  # 8-byte Folded Reload
	leaq	(%rdi,%rdi), %r9
	leaq	(%r9,%r9,2), %rsi
	addq	$2, %rsi
	leaq	(%r9,%r9,2), %rdi
	addq	$8, %rdi
	cmpq	%rcx, %rdi
	jbe	.LBB34_33
# %bb.30:                               # %join.6.i.i.i.i52
	cmpq	%rcx, %rsi
	jae	.LBB34_34
# %bb.31:                               # %"records::byte_at.exit.i.i5.i.i.i54"
	leaq	(%r9,%r9,2), %rsi
	movzbl	2(%rax,%rsi), %edi
	addq	$3, %rsi
	cmpq	%rcx, %rsi
	jae	.LBB34_35
# %bb.32:                               # %then.1.i6.i.i11.i.i.i60
	movzbl	(%rax,%rsi), %eax
	shll	$8, %eax
	movzwl	%di, %edi
	orl	%eax, %edi
	jmp	.LBB34_35
.LBB34_33:                              # %then.4.i.i.i.i43
	movzwl	(%rax,%rsi), %edi
.LBB34_35:                              # %"deck::is_missing.exit72"
	movzwl	%di, %ecx
	leaq	32(%rsp), %rdi
	leaq	80(%rsp), %rsi
	movq	%r12, %rdx
	callq	"assembly::find_block"
	movzwl	36(%rsp), %eax
	leaq	-1(%r14), %rcx
	cmpq	%rax, %rcx
	jae	.LBB34_38
# %bb.36:                               # %after.5
	cmpq	%r15, %rbx
	jae	.LBB34_41
# %bb.37:
	xorl	%ecx, %ecx
	movq	304(%rsp), %rsi
	jmp	.LBB34_46
.LBB34_38:                              # %join.9
	movq	24(%rsp), %r12                  # 8-byte Reload
	movq	$1, (%r12)
	movq	$18, 8(%r12)
.LBB34_39:                              # %common.ret
	movq	$0, 16(%r12)
.LBB34_40:                              # %common.ret
	addq	$232, %rsp
	popq	%rbx
	popq	%r12
	popq	%r13
	popq	%r14
	popq	%r15
	popq	%rbp
	retq
.LBB34_41:                              # %join.3.i73
	leaq	4(%r15), %rax
	cmpq	%rbx, %r15
	movq	304(%rsp), %rsi
	jae	.LBB34_44
# %bb.42:                               # %"records::byte_at.exit.i.i"
	movq	16(%rsp), %rdx                  # 8-byte Reload
	movzbl	(%rdx,%r15), %ecx
	incq	%r15
	cmpq	%rbx, %r15
	jae	.LBB34_45
# %bb.43:                               # %then.1.i6.i.i
	movzbl	(%rdx,%r15), %edx
	shll	$8, %edx
	movzwl	%cx, %ecx
	orl	%edx, %ecx
	jmp	.LBB34_45
.LBB34_44:
	xorl	%ecx, %ecx
.LBB34_45:                              # %"records::le16_at.exit.i"
	movzwl	%cx, %ecx
	movq	%rbx, %rdx
	subq	%rax, %rdx
	movq	%rax, %rdi
	cmovbq	%rbx, %rdi
	cmpq	%rcx, %rdx
	cmovaeq	%rcx, %rdx
	xorl	%ecx, %ecx
	cmpq	%rax, %rbx
	cmovaeq	%rdx, %rcx
	movq	%rdi, %rbx
.LBB34_46:                              # %"records::payload_at.exit"
	movq	296(%rsp), %rdi
	movq	%r13, %rax
	orq	%rbp, %rax
	cmpq	$31, %rax
	ja	.LBB34_48
# %bb.47:                               # %join.6.i
	movq	16(%rsp), %rdx                  # 8-byte Reload
	addq	%rbx, %rdx
	movq	%r14, 8(%rsp)
	movq	%r13, (%rsp)
	movq	%rbp, %r8
	movq	40(%rsp), %r9                   # 8-byte Reload
	callq	"climb::climb"
	jmp	.LBB34_49
.LBB34_48:
	xorl	%eax, %eax
.LBB34_49:                              # %"climb::far.exit"
	movq	24(%rsp), %r12                  # 8-byte Reload
	movq	$0, (%r12)
	movq	%rax, 8(%r12)
	jmp	.LBB34_39
.Lfunc_end34:
	.size	"compose::distance::distance_in", .Lfunc_end34-"compose::distance::distance_in"
                                        # -- End function
	.section	".text.climb::climb","ax",@progbits
	.p2align	4                               # -- Begin function climb::climb
	.type	"climb::climb",@function
"climb::climb":                         # @"climb::climb"
# %bb.0:                                # %start
	pushq	%rbp
	pushq	%r15
	pushq	%r14
	pushq	%r13
	pushq	%r12
	pushq	%rbx
	subq	$104, %rsp
	movq	%r8, %r14
	movq	%rcx, %r8
	movq	%rdx, %rcx
	movq	%rsi, %r12
	movq	%rdi, %r13
	movq	168(%rsp), %rbx
	movq	160(%rsp), %rbp
	xorps	%xmm0, %xmm0
	movaps	%xmm0, 64(%rsp)
	movq	$0, 80(%rsp)
	movaps	%xmm0, 32(%rsp)
	movq	$0, 48(%rsp)
	xorl	%r15d, %r15d
	cmpq	%rbp, %r14
	jae	.LBB35_3
# %bb.1:                                # %then.1.lr.ph
	movq	%rbx, %rdx
	movq	%rbp, %rax
	.p2align	4
.LBB35_2:                               # %then.1
                                        # =>This Inner Loop Header: Depth=1
	movq	%r14, 24(%rsp)                  # 8-byte Spill
	movq	%r9, %rbx
	movq	%r9, 16(%rsp)
	movq	%r14, 8(%rsp)
	movq	%rdx, (%rsp)
	leaq	64(%rsp), %rdi
	movq	%r13, %rsi
	movq	%r12, %rdx
	movq	%r8, %r14
	movq	%rax, %r9
	movq	%r15, %rbp
	movq	%r13, %r15
	movq	%r12, %r13
	movq	%rcx, %r12
	callq	"climb::first_leg"
	movq	%r12, %rcx
	movq	%r13, %r12
	movq	%r15, %r13
	movq	%rbp, %r15
	movq	24(%rsp), %rbp                  # 8-byte Reload
	movq	%r14, %r8
	movq	72(%rsp), %r14
	movq	80(%rsp), %r9
	addq	64(%rsp), %r15
	xorps	%xmm0, %xmm0
	movaps	%xmm0, 64(%rsp)
	movq	$0, 80(%rsp)
	movaps	%xmm0, 32(%rsp)
	movq	$0, 48(%rsp)
	movq	%rbx, %rdx
	movq	%rbp, %rax
	cmpq	%rbp, %r14
	jb	.LBB35_2
.LBB35_3:                               # %join.3
	movq	%rcx, 96(%rsp)                  # 8-byte Spill
	movq	%rbx, 16(%rsp)
	movq	%rbp, 8(%rsp)
	movq	%r9, (%rsp)
	leaq	32(%rsp), %rdi
	movq	%r13, %rsi
	movq	%r12, %rdx
	movq	%r8, 24(%rsp)                   # 8-byte Spill
	movq	%r14, %r9
	callq	"climb::first_leg"
	cmpq	%rbp, %r14
	jne	.LBB35_5
# %bb.4:                                # %then.4
	addq	32(%rsp), %r15
	jmp	.LBB35_6
.LBB35_5:                               # %join.6
	movq	40(%rsp), %r8
	movq	48(%rsp), %r9
	movq	%rbx, 8(%rsp)
	movq	%rbp, (%rsp)
	movq	%r13, %rdi
	movq	%r12, %rsi
	movq	96(%rsp), %rdx                  # 8-byte Reload
	movq	24(%rsp), %rcx                  # 8-byte Reload
	callq	"climb::climb"
	addq	%r15, %rax
	addq	32(%rsp), %rax
	movq	%rax, %r15
.LBB35_6:                               # %common.ret
	movq	%r15, %rax
	addq	$104, %rsp
	popq	%rbx
	popq	%r12
	popq	%r13
	popq	%r14
	popq	%r15
	popq	%rbp
	retq
.Lfunc_end35:
	.size	"climb::climb", .Lfunc_end35-"climb::climb"
                                        # -- End function
	.section	".text.climb::first_leg","ax",@progbits
	.p2align	4                               # -- Begin function climb::first_leg
	.type	"climb::first_leg",@function
"climb::first_leg":                     # @"climb::first_leg"
# %bb.0:                                # %start
	pushq	%rbp
	pushq	%r15
	pushq	%r14
	pushq	%r13
	pushq	%r12
	pushq	%rbx
	subq	$264, %rsp                      # imm = 0x108
	movq	%r9, %r15
	movq	%rdi, %rbx
	movq	328(%rsp), %r12
	movq	320(%rsp), %r14
	movl	$2863311531, %eax               # imm = 0xAAAAAAAB
	imulq	%r8, %rax
	shrq	$34, %rax
	cmpq	%rax, %r9
	jbe	.LBB36_3
# %bb.1:                                # %"assembly::placement_at.exit.thread"
	imull	$63551, %edx, %edi              # imm = 0xF83F
	shrl	$25, %edi
	xorps	%xmm0, %xmm0
	cmpq	%r12, %r15
	jne	.LBB36_12
# %bb.2:                                # %then.1.thread
	movaps	%xmm0, 112(%rsp)
	movaps	%xmm0, 96(%rsp)
	movaps	%xmm0, 80(%rsp)
	movaps	%xmm0, 64(%rsp)
	movaps	%xmm0, 48(%rsp)
	movaps	%xmm0, 32(%rsp)
	movaps	%xmm0, 16(%rsp)
	movaps	%xmm0, (%rsp)
	jmp	.LBB36_33
.LBB36_3:                               # %join.3.i
	leaq	(%r15,%r15), %rax
	leaq	(%rax,%rax,2), %rdi
	leaq	(%rax,%rax,2), %r9
	addq	$8, %r9
	cmpq	%r8, %r9
	jbe	.LBB36_13
# %bb.4:                                # %join.6.i
	leaq	(%rax,%rax,2), %rax
	addq	$2, %rax
	cmpq	%r8, %rax
	jae	.LBB36_14
# %bb.5:                                # %"records::byte_at.exit.i.i"
	movzbl	2(%rcx,%rdi), %eax
	leaq	3(%rdi), %r9
	cmpq	%r8, %r9
	jae	.LBB36_7
# %bb.6:                                # %then.1.i6.i.i
	movzbl	(%rcx,%r9), %r9d
	shll	$8, %r9d
	movzwl	%ax, %eax
	orl	%r9d, %eax
.LBB36_7:                               # %"records::le16_at.exit.i"
	leaq	4(%rdi), %r9
	cmpq	%r8, %r9
	jae	.LBB36_15
.LBB36_8:                               # %"records::byte_at.exit.i46.i"
	movzbl	4(%rcx,%rdi), %ebp
	leaq	5(%rdi), %r9
	cmpq	%r8, %r9
	jae	.LBB36_10
# %bb.9:                                # %then.1.i6.i52.i
	movzbl	(%rcx,%r9), %r9d
	shll	$8, %r9d
	movzwl	%bp, %ebp
	orl	%r9d, %ebp
.LBB36_10:                              # %"records::le16_at.exit55.i"
	addq	$6, %rdi
	cmpq	%r8, %rdi
	jae	.LBB36_16
.LBB36_11:                              # %then.1.i.i
	movzbl	(%rcx,%rdi), %r13d
	jmp	.LBB36_17
.LBB36_12:                              # %join.3.thread
	movaps	%xmm0, 240(%rsp)
	movaps	%xmm0, 224(%rsp)
	movaps	%xmm0, 208(%rsp)
	movaps	%xmm0, 192(%rsp)
	movaps	%xmm0, 176(%rsp)
	movaps	%xmm0, 160(%rsp)
	movaps	%xmm0, 144(%rsp)
	movaps	%xmm0, 128(%rsp)
	xorl	%ecx, %ecx
	xorl	%ebp, %ebp
	xorl	%r13d, %r13d
	jmp	.LBB36_40
.LBB36_13:                              # %then.4.i
	movzwl	2(%rcx,%rdi), %eax
	movzwl	4(%rcx,%rdi), %ebp
	movzbl	6(%rcx,%rdi), %r13d
	movzbl	7(%rcx,%rdi), %ecx
	jmp	.LBB36_18
.LBB36_14:
	xorl	%eax, %eax
	leaq	4(%rdi), %r9
	cmpq	%r8, %r9
	jb	.LBB36_8
.LBB36_15:
	xorl	%ebp, %ebp
	addq	$6, %rdi
	cmpq	%r8, %rdi
	jb	.LBB36_11
.LBB36_16:
	xorl	%r13d, %r13d
.LBB36_17:                              # %"assembly::placement_at.exit"
	xorl	%ecx, %ecx
.LBB36_18:                              # %"assembly::placement_at.exit"
	movzwl	%dx, %edi
	imull	$63551, %edi, %r8d              # imm = 0xF83F
	shrl	$25, %r8d
	xorps	%xmm0, %xmm0
	cmpq	%r12, %r15
	jne	.LBB36_24
# %bb.19:                               # %then.1
	movaps	%xmm0, 112(%rsp)
	movaps	%xmm0, 96(%rsp)
	movaps	%xmm0, 80(%rsp)
	movaps	%xmm0, 64(%rsp)
	movaps	%xmm0, 48(%rsp)
	movaps	%xmm0, 32(%rsp)
	movaps	%xmm0, 16(%rsp)
	movaps	%xmm0, (%rsp)
	testw	%ax, %ax
	je	.LBB36_29
# %bb.20:                               # %join.8.i.i.preheader
	xorl	%edi, %edi
	movq	%rsi, %rcx
	.p2align	4
.LBB36_21:                              # %join.8.i.i
                                        # =>This Inner Loop Header: Depth=1
	cmpw	(%rcx), %ax
	je	.LBB36_31
# %bb.22:                               # %join.11.i.i
                                        #   in Loop: Header=BB36_21 Depth=1
	incq	%rdi
	addq	$528, %rcx                      # imm = 0x210
	cmpq	%rdi, %r8
	jne	.LBB36_21
.LBB36_29:
	movq	%r8, %rdi
.LBB36_33:                              # %join.3.i.i
	imulq	$528, %rdi, %rcx                # imm = 0x210
	movq	%rdx, %rax
	subq	%rcx, %rax
	movq	%rcx, %rdi
	cmovbq	%rdx, %rdi
	cmpq	$528, %rax                      # imm = 0x210
	movl	$528, %r8d                      # imm = 0x210
	cmovbq	%rax, %r8
	xorl	%eax, %eax
	cmpq	%rcx, %rdx
	cmovaeq	%r8, %rax
	movq	%rdi, %rdx
.LBB36_34:                              # %"shelf::summary_at.exit.i"
	movq	336(%rsp), %r15
	addq	%rdx, %rsi
	movq	%rsp, %rdi
	movq	%rax, %rdx
	movq	%r14, %rcx
	callq	"summary::seen"
	leaq	-65(%r15), %rax
	cmpq	$-64, %rax
	jae	.LBB36_36
# %bb.35:
	xorl	%eax, %eax
	jmp	.LBB36_37
.LBB36_24:                              # %join.3
	movaps	%xmm0, 240(%rsp)
	movaps	%xmm0, 224(%rsp)
	movaps	%xmm0, 208(%rsp)
	movaps	%xmm0, 192(%rsp)
	movaps	%xmm0, 176(%rsp)
	movaps	%xmm0, 160(%rsp)
	movaps	%xmm0, 144(%rsp)
	movaps	%xmm0, 128(%rsp)
	testw	%ax, %ax
	je	.LBB36_30
# %bb.25:                               # %join.8.i.i20.preheader
	xorl	%edi, %edi
	movq	%rsi, %r9
	.p2align	4
.LBB36_26:                              # %join.8.i.i20
                                        # =>This Inner Loop Header: Depth=1
	cmpw	(%r9), %ax
	je	.LBB36_38
# %bb.27:                               # %join.11.i.i26
                                        #   in Loop: Header=BB36_26 Depth=1
	incq	%rdi
	addq	$528, %r9                       # imm = 0x210
	cmpq	%rdi, %r8
	jne	.LBB36_26
.LBB36_30:
	movq	%r8, %rdi
.LBB36_40:                              # %join.3.i.i29
	imulq	$528, %rdi, %rdi                # imm = 0x210
	movq	%rdx, %rax
	subq	%rdi, %rax
	movq	%rdi, %r8
	cmovbq	%rdx, %r8
	cmpq	$528, %rax                      # imm = 0x210
	movl	$528, %r9d                      # imm = 0x210
	cmovbq	%rax, %r9
	xorl	%eax, %eax
	cmpq	%rdi, %rdx
	cmovaeq	%r9, %rax
	movq	%r8, %rdx
.LBB36_41:                              # %"shelf::summary_at.exit.i37"
	addq	%rdx, %rsi
	leaq	128(%rsp), %rdi
	movq	%rax, %rdx
	callq	"summary::seen"
	leaq	-65(%r14), %rcx
	movl	$1, %eax
	cmpq	$-64, %rcx
	jb	.LBB36_43
# %bb.42:                               # %join.3.i3.i42
	movzbl	191(%rsp,%r14), %eax
	incq	%rax
.LBB36_43:                              # %"climb::inside.exit48"
	movzwl	%bp, %ecx
	decq	%rcx
	xorl	%edx, %edx
	cmpq	%r15, %rcx
	cmovbq	%rcx, %rdx
	movzbl	%r13b, %ecx
	movq	%rax, (%rbx)
	movq	%rdx, 8(%rbx)
	movq	%rcx, 16(%rbx)
	jmp	.LBB36_44
.LBB36_36:                              # %join.3.i3.i
	movzbl	63(%rsp,%r15), %eax
.LBB36_37:                              # %"climb::inside.exit"
	movq	%rax, (%rbx)
	movq	%r12, 8(%rbx)
	movq	%r15, 16(%rbx)
.LBB36_44:                              # %common.ret
	addq	$264, %rsp                      # imm = 0x108
	popq	%rbx
	popq	%r12
	popq	%r13
	popq	%r14
	popq	%r15
	popq	%rbp
	retq
.LBB36_31:                              # %"shelf::place_of.exit.i"
	cmpq	%r8, %rdi
	jbe	.LBB36_33
# %bb.32:
	xorl	%eax, %eax
	jmp	.LBB36_34
.LBB36_38:                              # %"shelf::place_of.exit.i46"
	cmpq	%r8, %rdi
	jbe	.LBB36_40
# %bb.39:
	xorl	%eax, %eax
	jmp	.LBB36_41
.Lfunc_end36:
	.size	"climb::first_leg", .Lfunc_end36-"climb::first_leg"
                                        # -- End function
	.section	".text.molfile::kept_bonds","ax",@progbits
	.p2align	4                               # -- Begin function molfile::kept_bonds
	.type	"molfile::kept_bonds",@function
"molfile::kept_bonds":                  # @"molfile::kept_bonds"
# %bb.0:                                # %start
	pushq	%rbp
	pushq	%r15
	pushq	%r14
	pushq	%r13
	pushq	%r12
	pushq	%rbx
	subq	$3072, %rsp                     # imm = 0xC00
	movq	$0, (%rsp)
	subq	$3072, %rsp                     # imm = 0xC00
	movq	$0, (%rsp)
	subq	$968, %rsp                      # imm = 0x3C8
	movq	%r8, %r14
	movq	%rcx, %rbp
	movq	%rdx, %r12
	movq	%rsi, %r13
	movq	%rdi, %rbx
	leaq	80(%rsp), %rdi
	callq	"molfile::counts_line"
	cmpb	$0, 80(%rsp)
	movq	88(%rsp), %rcx
	movq	96(%rsp), %r15
	je	.LBB37_1
# %bb.26:                               # %arm.2
	movq	$1, (%rbx)
	movq	%rcx, 8(%rbx)
	movq	%r15, 16(%rbx)
	jmp	.LBB37_25
.LBB37_1:                               # %arm.1
	movq	%rbp, 48(%rsp)                  # 8-byte Spill
	movq	104(%rsp), %rax
	movq	%rcx, 56(%rsp)
	movq	%r15, 64(%rsp)
	movq	%rax, 72(%rsp)
	xorps	%xmm0, %xmm0
	movaps	%xmm0, 16(%rsp)
	movq	$0, 32(%rsp)
	leaq	119(%rsp), %rdi
	movl	$999, %edx                      # imm = 0x3E7
	movq	%rcx, 40(%rsp)                  # 8-byte Spill
	xorl	%esi, %esi
	callq	memset@PLT
	leaq	3116(%rsp), %rdi
	movl	$1998, %edx                     # imm = 0x7CE
	xorl	%esi, %esi
	callq	memset@PLT
	leaq	5114(%rsp), %rbp
	movl	$1998, %edx                     # imm = 0x7CE
	movq	%rbp, %rdi
	xorl	%esi, %esi
	callq	memset@PLT
	movq	%rbp, (%rsp)
	leaq	16(%rsp), %rdi
	leaq	56(%rsp), %rcx
	movq	%r13, %rsi
	movq	%r12, %rdx
	leaq	119(%rsp), %r8
	leaq	3116(%rsp), %r9
	callq	"molfile::lists"
	cmpb	$0, 16(%rsp)
	je	.LBB37_2
# %bb.23:                               # %arm.6.i
	movq	24(%rsp), %rax
	movq	32(%rsp), %rcx
	movl	$1, %edx
	jmp	.LBB37_24
.LBB37_2:                               # %arm.5.i
	movq	40(%rsp), %r12                  # 8-byte Reload
	leaq	1118(%rsp), %rdi
	movl	$1998, %edx                     # imm = 0x7CE
	xorl	%esi, %esi
	callq	memset@PLT
	testq	%r15, %r15
	je	.LBB37_5
# %bb.3:                                # %join.5.i.i.i.preheader
	xorl	%eax, %eax
	xorl	%ecx, %ecx
	.p2align	4
.LBB37_4:                               # %join.5.i.i.i
                                        # =>This Inner Loop Header: Depth=1
	movzwl	3116(%rsp,%rcx,2), %edx
	movzwl	5114(%rsp,%rcx,2), %esi
	movzwl	1116(%rsp,%rdx,2), %edi
	cmpb	$1, 118(%rsp,%rsi)
	sbbw	$0, %di
	addl	$2, %edi
	cmpb	$1, 118(%rsp,%rdx)
	movw	$2, %r8w
	sbbw	$0, %r8w
	cmpw	%si, %dx
	cmovel	%eax, %r8d
	movw	%di, 1116(%rsp,%rdx,2)
	addw	%r8w, 1116(%rsp,%rsi,2)
	incq	%rcx
	cmpq	%rcx, %r15
	jne	.LBB37_4
.LBB37_5:                               # %"molfile::dropping::weigh.exit.i.i"
	testq	%r12, %r12
	movq	48(%rsp), %r11                  # 8-byte Reload
	je	.LBB37_6
# %bb.7:                                # %join.5.i1.i.i.preheader
	movq	%r12, %rsi
	xorl	%ecx, %ecx
	cmpq	$1, %r12
	jne	.LBB37_9
# %bb.8:
	xorl	%eax, %eax
	xorl	%edx, %edx
	jmp	.LBB37_12
.LBB37_6:
	xorl	%eax, %eax
	jmp	.LBB37_13
.LBB37_9:                               # %join.5.i1.i.i.preheader.new
	andq	$-2, %rsi
	xorl	%edi, %edi
	xorl	%eax, %eax
	xorl	%edx, %edx
	.p2align	4
.LBB37_10:                              # %join.5.i1.i.i
                                        # =>This Inner Loop Header: Depth=1
	cmpb	$1, 119(%rsp,%rdx)
	movzbl	120(%rsp,%rdx), %r8d
	setne	%r9b
	cmpw	$1, 1118(%rsp,%rdx,2)
	setne	%r10b
	orb	%r9b, %r10b
	movzbl	%r10b, %r9d
	addq	%r9, %rax
	testb	%r9b, %r9b
	movl	$0, %r9d
	cmovnel	%eax, %r9d
	movzwl	1120(%rsp,%rdx,2), %r10d
	cmpb	$1, %r8b
	setne	%r8b
	cmpw	$1, %r10w
	setne	%r10b
	orb	%r8b, %r10b
	movzbl	%r10b, %r8d
	addq	%r8, %rax
	testb	%r8b, %r8b
	movl	%eax, %r8d
	cmovel	%edi, %r8d
	movw	%r9w, 1118(%rsp,%rdx,2)
	movw	%r8w, 1120(%rsp,%rdx,2)
	addq	$2, %rdx
	cmpq	%rdx, %rsi
	jne	.LBB37_10
# %bb.11:                               # %"molfile::dropping::renumber.exit.i.i.loopexit.unr-lcssa"
	testb	$1, %r12b
	je	.LBB37_13
.LBB37_12:                              # %join.5.i1.i.i.epil.preheader
	cmpb	$1, 119(%rsp,%rdx)
	setne	%sil
	cmpw	$1, 1118(%rsp,%rdx,2)
	setne	%dil
	orb	%sil, %dil
	movzbl	%dil, %esi
	addq	%rsi, %rax
	testb	%sil, %sil
	cmovnel	%eax, %ecx
	movw	%cx, 1118(%rsp,%rdx,2)
.LBB37_13:                              # %"molfile::dropping::renumber.exit.i.i"
	xorl	%ecx, %ecx
	testq	%r15, %r15
	je	.LBB37_22
# %bb.14:                               # %join.5.i4.i.i.preheader
	xorl	%edx, %edx
	jmp	.LBB37_15
	.p2align	4
.LBB37_21:                              # %"molfile::dropping::store.exit.i.i.i"
                                        #   in Loop: Header=BB37_15 Depth=1
	incq	%rdx
	cmpq	%rdx, %r15
	je	.LBB37_22
.LBB37_15:                              # %join.5.i4.i.i
                                        # =>This Inner Loop Header: Depth=1
	movzwl	3116(%rsp,%rdx,2), %esi
	movzwl	1116(%rsp,%rsi,2), %edi
	testw	%di, %di
	je	.LBB37_21
# %bb.16:                               # %join.5.i4.i.i
                                        #   in Loop: Header=BB37_15 Depth=1
	movzwl	5114(%rsp,%rdx,2), %esi
	movzwl	1116(%rsp,%rsi,2), %esi
	testw	%si, %si
	je	.LBB37_21
# %bb.17:                               # %join.6.i.i.i.i
                                        #   in Loop: Header=BB37_15 Depth=1
	cmpq	%r14, %rcx
	jae	.LBB37_19
# %bb.18:                               # %then.1.i.i.i.i.i
                                        #   in Loop: Header=BB37_15 Depth=1
	movw	%di, (%r11,%rcx,2)
	incq	%rcx
.LBB37_19:                              # %"molfile::dropping::put.exit.i.i.i.i"
                                        #   in Loop: Header=BB37_15 Depth=1
	cmpq	%r14, %rcx
	jae	.LBB37_21
# %bb.20:                               # %then.1.i7.i.i.i.i
                                        #   in Loop: Header=BB37_15 Depth=1
	movw	%si, (%r11,%rcx,2)
	incq	%rcx
	jmp	.LBB37_21
.LBB37_22:                              # %"molfile::dropping::kept.exit.i"
	xorl	%edx, %edx
.LBB37_24:                              # %"molfile::listed.exit"
	movq	%rdx, (%rbx)
	movq	%rax, 8(%rbx)
	movq	%rcx, 16(%rbx)
.LBB37_25:                              # %common.ret
	addq	$7112, %rsp                     # imm = 0x1BC8
	popq	%rbx
	popq	%r12
	popq	%r13
	popq	%r14
	popq	%r15
	popq	%rbp
	retq
.Lfunc_end37:
	.size	"molfile::kept_bonds", .Lfunc_end37-"molfile::kept_bonds"
                                        # -- End function
	.section	".text.molfile::counts_line","ax",@progbits
	.p2align	4                               # -- Begin function molfile::counts_line
	.type	"molfile::counts_line",@function
"molfile::counts_line":                 # @"molfile::counts_line"
# %bb.0:                                # %start
	pushq	%r15
	pushq	%r14
	pushq	%rbx
	subq	$32, %rsp
	movq	%rdx, %r14
	movq	%rdi, %rbx
	xorps	%xmm0, %xmm0
	movaps	%xmm0, 16(%rsp)
	movaps	%xmm0, (%rsp)
	testq	%rdx, %rdx
	je	.LBB38_5
# %bb.1:                                # %join.3.i.i
	movq	%rsi, %r15
	movq	%rsi, %rdi
	movq	%r14, %rsi
	xorl	%edx, %edx
	callq	"text::line_end"
	leaq	1(%rax), %rdx
	cmpq	%rax, %r14
	cmovbeq	%r14, %rdx
	cmpq	%rdx, %r14
	jbe	.LBB38_5
# %bb.2:                                # %join.3.i.1.i
	movq	%r15, %rdi
	movq	%r14, %rsi
	callq	"text::line_end"
	leaq	1(%rax), %rdx
	cmpq	%rax, %r14
	cmovbeq	%r14, %rdx
	cmpq	%rdx, %r14
	jbe	.LBB38_5
# %bb.3:                                # %arm.1
	movq	%r15, %rdi
	movq	%r14, %rsi
	callq	"text::line_end"
	leaq	1(%rax), %rcx
	cmpq	%rax, %r14
	cmovbeq	%r14, %rcx
	movq	%rsp, %rdi
	movq	%r15, %rsi
	movq	%r14, %rdx
	callq	"molfile::two_numbers"
	movzbl	(%rsp), %eax
	movq	%rax, (%rbx)
	movups	8(%rsp), %xmm0
	movups	%xmm0, 8(%rbx)
	jmp	.LBB38_4
.LBB38_5:                               # %arm.2
	movq	$25, 8(%rsp)
	movq	%r14, 16(%rsp)
	movq	$1, (%rbx)
	movq	8(%rsp), %rax
	movq	%rax, 8(%rbx)
	movq	16(%rsp), %rax
	movq	%rax, 16(%rbx)
.LBB38_4:                               # %common.ret
	movq	24(%rsp), %rax
	movq	%rax, 24(%rbx)
	addq	$32, %rsp
	popq	%rbx
	popq	%r14
	popq	%r15
	retq
.Lfunc_end38:
	.size	"molfile::counts_line", .Lfunc_end38-"molfile::counts_line"
                                        # -- End function
	.section	.rodata.cst16,"aM",@progbits,16
	.p2align	4, 0x0                          # -- Begin function text::line_end
.LCPI39_0:
	.quad	723401728380766730              # 0xa0a0a0a0a0a0a0a
	.quad	168430090                       # 0xa0a0a0a
.LCPI39_1:
	.zero	16,10
	.section	".text.text::line_end","ax",@progbits
	.p2align	4
	.type	"text::line_end",@function
"text::line_end":                       # @"text::line_end"
# %bb.0:                                # %start
	movq	%rdx, %rax
	movq	%rsi, %rcx
	subq	%rdx, %rcx
	setbe	%dl
	cmpq	$16, %rcx
	setb	%r8b
	orb	%dl, %r8b
	je	.LBB39_1
.LBB39_5:                               # %"text::skip.exit"
	cmpq	%rsi, %rax
	jae	.LBB39_9
	.p2align	4
.LBB39_6:                               # %join.5
                                        # =>This Inner Loop Header: Depth=1
	cmpb	$10, (%rdi,%rax)
	je	.LBB39_9
# %bb.7:                                # %join.8
                                        #   in Loop: Header=BB39_6 Depth=1
	incq	%rax
	cmpq	%rax, %rsi
	jne	.LBB39_6
# %bb.8:
	movq	%rsi, %rax
.LBB39_9:                               # %common.ret
	retq
.LBB39_1:                               # %join.8.i.preheader
	addq	$-16, %rcx
	.p2align	4
.LBB39_2:                               # %join.8.i
                                        # =>This Inner Loop Header: Depth=1
	movq	(%rdi,%rax), %xmm0              # xmm0 = mem[0],zero
	movd	8(%rdi,%rax), %xmm1             # xmm1 = mem[0],zero,zero,zero
	punpcklqdq	%xmm1, %xmm0            # xmm0 = xmm0[0],xmm1[0]
	pcmpeqb	.LCPI39_0(%rip), %xmm0
	psllw	$7, %xmm0
	pmovmskb	%xmm0, %edx
	movl	%edx, %r8d
	andl	$4095, %r8d                     # imm = 0xFFF
	shrl	%edx
	andl	$1365, %edx                     # imm = 0x555
	subl	%edx, %r8d
	movl	%r8d, %edx
	andl	$13107, %edx                    # imm = 0x3333
	shrl	$2, %r8d
	andl	$13107, %r8d                    # imm = 0x3333
	addl	%edx, %r8d
	movl	%r8d, %r9d
	shrl	$4, %r9d
	addl	%r8d, %r9d
	andl	$3855, %r9d                     # imm = 0xF0F
	movl	%r9d, %edx
	shrl	$8, %edx
	addl	%r9d, %edx
	movd	12(%rdi,%rax), %xmm0            # xmm0 = mem[0],zero,zero,zero
	punpcklbw	%xmm0, %xmm0            # xmm0 = xmm0[0,0,1,1,2,2,3,3,4,4,5,5,6,6,7,7]
	punpcklwd	%xmm0, %xmm0            # xmm0 = xmm0[0,0,1,1,2,2,3,3]
	pcmpeqb	.LCPI39_1(%rip), %xmm0
	movmskps	%xmm0, %r8d
	movl	%r8d, %r9d
	shrb	$3, %r9b
	movl	%r8d, %r10d
	andb	$4, %r10b
	shrb	$2, %r10b
	movl	%r8d, %r11d
	andb	$2, %r11b
	shrb	%r11b
	addb	%r10b, %r11b
	andb	$1, %r8b
	addb	%r11b, %r8b
	addb	%dl, %r8b
	orb	%r9b, %r8b
	jne	.LBB39_5
# %bb.3:                                # %join.11.i
                                        #   in Loop: Header=BB39_2 Depth=1
	addq	$16, %rax
	subq	$16, %rcx
	setb	%dl
	cmpq	%rsi, %rax
	jae	.LBB39_5
# %bb.4:                                # %join.11.i
                                        #   in Loop: Header=BB39_2 Depth=1
	testb	%dl, %dl
	je	.LBB39_2
	jmp	.LBB39_5
.Lfunc_end39:
	.size	"text::line_end", .Lfunc_end39-"text::line_end"
                                        # -- End function
	.section	".text.molfile::two_numbers","ax",@progbits
	.p2align	4                               # -- Begin function molfile::two_numbers
	.type	"molfile::two_numbers",@function
"molfile::two_numbers":                 # @"molfile::two_numbers"
# %bb.0:                                # %start
	pushq	%r15
	pushq	%r14
	pushq	%r12
	pushq	%rbx
	pushq	%rax
	movq	%rdx, %r15
	movq	%rdi, %rbx
	cmpq	%rcx, %rdx
	jbe	.LBB40_8
# %bb.1:                                # %join.3.i
	movq	%rcx, %r14
	movq	%rsi, %r12
	movq	%rsi, %rdi
	movq	%r15, %rsi
	movq	%rcx, %rdx
	callq	"text::line_end"
	movq	%rax, %rcx
	subq	%r14, %rcx
	cmpq	%rax, %r15
	jbe	.LBB40_6
# %bb.2:                                # %join.3.i.i
	testq	%rcx, %rcx
	je	.LBB40_7
# %bb.3:                                # %join.7.i.i
	cmpb	$13, -1(%r12,%rax)
	jne	.LBB40_5
# %bb.4:                                # %then.8.i.i
	decq	%rcx
.LBB40_5:                               # %join.10.i.i
	incq	%rax
	movq	%rax, %r15
.LBB40_6:                               # %"text::line_at.exit.i"
	cmpq	$6, %rcx
	jae	.LBB40_11
.LBB40_7:
	movq	%r14, %r15
.LBB40_8:                               # %arm.2
	movq	$1, (%rbx)
	movq	$25, 8(%rbx)
	movq	%r15, 16(%rbx)
.LBB40_9:                               # %common.ret
	movq	$0, 24(%rbx)
.LBB40_10:                              # %common.ret
	addq	$8, %rsp
	popq	%rbx
	popq	%r12
	popq	%r14
	popq	%r15
	retq
.LBB40_11:                              # %arm.1
	movzbl	(%r12,%r14), %esi
	movzbl	1(%r12,%r14), %edx
	movzbl	2(%r12,%r14), %ecx
	cmpq	$32, %rsi
	jne	.LBB40_14
# %bb.12:                               # %then.1.i.i
	cmpl	$32, %edx
	jne	.LBB40_18
# %bb.13:                               # %then.1.i.i.i
	leal	-48(%rcx), %eax
	addq	$-48, %rcx
	cmpb	$10, %al
	movl	$1000, %eax                     # imm = 0x3E8
	cmovbq	%rcx, %rax
	jmp	.LBB40_21
.LBB40_14:                              # %join.3.i.i7
	leal	-48(%rsi), %edi
	movl	$1000, %eax                     # imm = 0x3E8
	cmpb	$9, %dil
	ja	.LBB40_21
# %bb.15:                               # %join.3.i.i7
	leal	-48(%rdx), %edi
	cmpb	$9, %dil
	ja	.LBB40_21
# %bb.16:                               # %join.3.i.i7
	leal	-48(%rcx), %edi
	cmpb	$9, %dil
	ja	.LBB40_21
# %bb.17:                               # %then.10.i.i
	leaq	(%rsi,%rsi,4), %rax
	leaq	(%rdx,%rax,2), %rax
	leaq	(%rax,%rax,4), %rax
	movl	%eax, %eax
	leaq	(%rcx,%rax,2), %rax
	addq	$-5328, %rax                    # imm = 0xEB30
	jmp	.LBB40_21
.LBB40_18:                              # %join.3.i.i.i
	leal	-48(%rdx), %esi
	movl	$1000, %eax                     # imm = 0x3E8
	cmpb	$9, %sil
	ja	.LBB40_21
# %bb.19:                               # %join.3.i.i.i
	leal	-48(%rcx), %esi
	cmpb	$9, %sil
	ja	.LBB40_21
# %bb.20:                               # %then.7.i.i.i
	leaq	(%rdx,%rdx,4), %rax
	leaq	(%rcx,%rax,2), %rax
	addq	$-528, %rax                     # imm = 0xFDF0
.LBB40_21:                              # %"molfile::number_at.exit"
	movzbl	3(%r12,%r14), %edi
	movzbl	4(%r12,%r14), %esi
	movzbl	5(%r12,%r14), %ecx
	cmpq	$32, %rdi
	jne	.LBB40_24
# %bb.22:                               # %then.1.i.i30
	cmpl	$32, %esi
	jne	.LBB40_28
# %bb.23:                               # %then.1.i.i.i41
	leal	-48(%rcx), %edx
	addq	$-48, %rcx
	cmpb	$10, %dl
	movl	$1000, %edx                     # imm = 0x3E8
	cmovbq	%rcx, %rdx
	jmp	.LBB40_31
.LBB40_24:                              # %join.3.i.i16
	leal	-48(%rdi), %r8d
	movl	$1000, %edx                     # imm = 0x3E8
	cmpb	$9, %r8b
	ja	.LBB40_31
# %bb.25:                               # %join.3.i.i16
	leal	-48(%rsi), %r8d
	cmpb	$9, %r8b
	ja	.LBB40_31
# %bb.26:                               # %join.3.i.i16
	leal	-48(%rcx), %r8d
	cmpb	$9, %r8b
	ja	.LBB40_31
# %bb.27:                               # %then.10.i.i23
	leaq	(%rdi,%rdi,4), %rdx
	leaq	(%rsi,%rdx,2), %rdx
	leaq	(%rdx,%rdx,4), %rdx
	movl	%edx, %edx
	leaq	(%rcx,%rdx,2), %rdx
	addq	$-5328, %rdx                    # imm = 0xEB30
	jmp	.LBB40_31
.LBB40_28:                              # %join.3.i.i.i32
	leal	-48(%rsi), %edi
	movl	$1000, %edx                     # imm = 0x3E8
	cmpb	$9, %dil
	ja	.LBB40_31
# %bb.29:                               # %join.3.i.i.i32
	leal	-48(%rcx), %edi
	cmpb	$9, %dil
	ja	.LBB40_31
# %bb.30:                               # %then.7.i.i.i36
	leaq	(%rsi,%rsi,4), %rdx
	leaq	(%rcx,%rdx,2), %rdx
	addq	$-528, %rdx                     # imm = 0xFDF0
.LBB40_31:                              # %"molfile::number_at.exit46"
	cmpq	$1000, %rax                     # imm = 0x3E8
	je	.LBB40_33
# %bb.32:                               # %join.7
	cmpq	$1000, %rdx                     # imm = 0x3E8
	jne	.LBB40_34
.LBB40_33:                              # %then.5
	movq	$1, (%rbx)
	movq	$26, 8(%rbx)
	movq	%r14, 16(%rbx)
	jmp	.LBB40_9
.LBB40_34:                              # %join.10
	movq	$0, (%rbx)
	movq	%rax, 8(%rbx)
	movq	%rdx, 16(%rbx)
	movq	%r15, 24(%rbx)
	jmp	.LBB40_10
.Lfunc_end40:
	.size	"molfile::two_numbers", .Lfunc_end40-"molfile::two_numbers"
                                        # -- End function
	.section	".text.molfile::lists","ax",@progbits
	.p2align	4                               # -- Begin function molfile::lists
	.type	"molfile::lists",@function
"molfile::lists":                       # @"molfile::lists"
# %bb.0:                                # %start
	pushq	%rbp
	pushq	%r15
	pushq	%r14
	pushq	%r13
	pushq	%r12
	pushq	%rbx
	subq	$72, %rsp
	movq	%r9, 24(%rsp)                   # 8-byte Spill
	movq	%r8, 32(%rsp)                   # 8-byte Spill
	movq	%rdx, %rbx
	movq	%rsi, %r12
	movq	%rdi, 8(%rsp)                   # 8-byte Spill
	movq	(%rcx), %r13
	movq	8(%rcx), %rax
	movq	%rax, 16(%rsp)                  # 8-byte Spill
	movq	16(%rcx), %r14
	testq	%r13, %r13
	je	.LBB41_27
# %bb.1:                                # %join.5.i.preheader
	xorl	%ebp, %ebp
	jmp	.LBB41_4
	.p2align	4
.LBB41_2:                               #   in Loop: Header=BB41_4 Depth=1
	xorl	%eax, %eax
.LBB41_3:                               # %"molfile::mark.exit.i"
                                        #   in Loop: Header=BB41_4 Depth=1
	movq	32(%rsp), %rcx                  # 8-byte Reload
	movb	%al, (%rcx,%rbp)
	incq	%rbp
	cmpq	%rbp, %r13
	je	.LBB41_27
.LBB41_4:                               # %join.5.i
                                        # =>This Inner Loop Header: Depth=1
	cmpq	%r14, %rbx
	jbe	.LBB41_56
# %bb.5:                                # %join.3.i.i
                                        #   in Loop: Header=BB41_4 Depth=1
	movq	%r14, %r15
	movq	%r12, %rdi
	movq	%rbx, %rsi
	movq	%r14, %rdx
	callq	"text::line_end"
	movq	%rax, %rcx
	subq	%r14, %rcx
	cmpq	%rax, %rbx
	jbe	.LBB41_10
# %bb.6:                                # %join.3.i.i.i
                                        #   in Loop: Header=BB41_4 Depth=1
	testq	%rcx, %rcx
	je	.LBB41_55
# %bb.7:                                # %join.7.i.i.i
                                        #   in Loop: Header=BB41_4 Depth=1
	movq	%rax, %r14
	cmpb	$13, -1(%r12,%rax)
	jne	.LBB41_9
# %bb.8:                                # %then.8.i.i.i
                                        #   in Loop: Header=BB41_4 Depth=1
	decq	%rcx
.LBB41_9:                               # %join.10.i.i.i
                                        #   in Loop: Header=BB41_4 Depth=1
	incq	%r14
	cmpq	$32, %rcx
	jae	.LBB41_11
	jmp	.LBB41_55
	.p2align	4
.LBB41_10:                              #   in Loop: Header=BB41_4 Depth=1
	movq	%rbx, %r14
	cmpq	$32, %rcx
	jb	.LBB41_55
.LBB41_11:                              # %"molfile::symbol.exit.i.i"
                                        #   in Loop: Header=BB41_4 Depth=1
	movb	$32, %al
	jne	.LBB41_13
# %bb.12:                               #   in Loop: Header=BB41_4 Depth=1
	movb	$32, %dl
	jmp	.LBB41_15
	.p2align	4
.LBB41_13:                              # %"molfile::symbol.exit7.i.i"
                                        #   in Loop: Header=BB41_4 Depth=1
	movzbl	32(%r12,%r15), %edx
	cmpq	$34, %rcx
	jb	.LBB41_15
# %bb.14:                               # %then.1.i10.i.i
                                        #   in Loop: Header=BB41_4 Depth=1
	movzbl	33(%r12,%r15), %eax
.LBB41_15:                              # %"molfile::symbol.exit13.i.i"
                                        #   in Loop: Header=BB41_4 Depth=1
	movzbl	31(%r12,%r15), %ecx
	cmpl	$72, %ecx
	je	.LBB41_21
# %bb.16:                               # %"molfile::symbol.exit13.i.i"
                                        #   in Loop: Header=BB41_4 Depth=1
	cmpl	$32, %ecx
	jne	.LBB41_2
# %bb.17:                               # %then.7.i.i.i
                                        #   in Loop: Header=BB41_4 Depth=1
	cmpb	$32, %dl
	je	.LBB41_23
# %bb.18:                               # %then.7.i.i.i
                                        #   in Loop: Header=BB41_4 Depth=1
	movzbl	%dl, %ecx
	cmpl	$72, %ecx
	jne	.LBB41_2
# %bb.19:                               # %then.10.i.i.i
                                        #   in Loop: Header=BB41_4 Depth=1
	cmpb	$32, %al
	jne	.LBB41_2
	jmp	.LBB41_24
	.p2align	4
.LBB41_21:                              # %"molfile::one_h.exit.i.i"
                                        #   in Loop: Header=BB41_4 Depth=1
	xorb	$32, %dl
	xorb	$32, %al
	orb	%dl, %al
	jne	.LBB41_2
	jmp	.LBB41_24
.LBB41_23:                              # %then.13.i.i.i
                                        #   in Loop: Header=BB41_4 Depth=1
	cmpb	$72, %al
	jne	.LBB41_2
	.p2align	4
.LBB41_24:                              #   in Loop: Header=BB41_4 Depth=1
	movb	$1, %al
	jmp	.LBB41_3
.LBB41_27:                              # %arm.1
	cmpq	$0, 16(%rsp)                    # 8-byte Folded Reload
	je	.LBB41_33
# %bb.28:                               # %join.5.lr.ph.i.i
	movq	128(%rsp), %r15
	xorl	%ebp, %ebp
	.p2align	4
.LBB41_29:                              # %join.5.i.i
                                        # =>This Inner Loop Header: Depth=1
	leaq	40(%rsp), %rdi
	movq	%r12, %rsi
	movq	%rbx, %rdx
	movq	%r14, %rcx
	callq	"molfile::two_numbers"
	cmpb	$0, 40(%rsp)
	movq	48(%rsp), %rdx
	movq	56(%rsp), %rax
	jne	.LBB41_58
# %bb.30:                               # %arm.1.i.i.i
                                        #   in Loop: Header=BB41_29 Depth=1
	leaq	-1(%rdx), %rsi
	movl	$27, %ecx
	cmpq	%r13, %rsi
	jae	.LBB41_59
# %bb.31:                               # %arm.1.i.i.i
                                        #   in Loop: Header=BB41_29 Depth=1
	leaq	-1(%rax), %rsi
	cmpq	%r13, %rsi
	jae	.LBB41_59
# %bb.32:                               # %arm.6.i.i
                                        #   in Loop: Header=BB41_29 Depth=1
	movq	64(%rsp), %r14
	movq	24(%rsp), %rcx                  # 8-byte Reload
	movw	%dx, (%rcx,%rbp,2)
	movw	%ax, (%r15,%rbp,2)
	incq	%rbp
	cmpq	%rbp, 16(%rsp)                  # 8-byte Folded Reload
	jne	.LBB41_29
.LBB41_33:                              # %arm.1.i
	movl	$1, %r15d
	cmpq	%rbx, %r14
	jae	.LBB41_57
# %bb.34:                               # %join.5.i4.i.preheader
	movq	%r14, %rdx
	jmp	.LBB41_38
	.p2align	4
.LBB41_35:                              #   in Loop: Header=BB41_38 Depth=1
	movq	%rax, %rsi
.LBB41_36:                              # %"text::starts_with.exit.i.i"
                                        #   in Loop: Header=BB41_38 Depth=1
	cmpq	$4, %rsi
	ja	.LBB41_62
.LBB41_37:                              # %join.8.i.i
                                        #   in Loop: Header=BB41_38 Depth=1
	movq	%r12, %rdi
	movq	%rbx, %rsi
	callq	"text::line_end"
	leaq	1(%rax), %rdx
	cmpq	%rax, %rbx
	cmovbeq	%rbx, %rdx
	cmpq	%rbx, %rdx
	jae	.LBB41_57
.LBB41_38:                              # %join.5.i4.i
                                        # =>This Inner Loop Header: Depth=1
	movq	%rdx, %rcx
	notq	%rcx
	addq	%rbx, %rcx
	cmpq	$5, %rcx
	movl	$5, %eax
	cmovbq	%rcx, %rax
	cmpb	$77, (%r12,%rdx)
	jne	.LBB41_37
# %bb.39:                               # %loop.2.i.i.i
                                        #   in Loop: Header=BB41_38 Depth=1
	testq	%rcx, %rcx
	je	.LBB41_35
# %bb.40:                               # %join.8.i.i.i
                                        #   in Loop: Header=BB41_38 Depth=1
	cmpb	$32, 1(%r12,%rdx)
	jne	.LBB41_43
# %bb.41:                               # %loop.2.i.i.i.1
                                        #   in Loop: Header=BB41_38 Depth=1
	cmpq	$1, %rcx
	je	.LBB41_35
# %bb.44:                               # %join.8.i.i.i.1
                                        #   in Loop: Header=BB41_38 Depth=1
	movl	$1, %esi
	cmpb	$32, 2(%r12,%rdx)
	jne	.LBB41_36
# %bb.45:                               # %loop.2.i.i.i.2
                                        #   in Loop: Header=BB41_38 Depth=1
	cmpq	$2, %rcx
	je	.LBB41_35
# %bb.47:                               # %join.8.i.i.i.2
                                        #   in Loop: Header=BB41_38 Depth=1
	movl	$2, %esi
	cmpb	$69, 3(%r12,%rdx)
	jne	.LBB41_36
# %bb.48:                               # %loop.2.i.i.i.3
                                        #   in Loop: Header=BB41_38 Depth=1
	cmpq	$3, %rcx
	je	.LBB41_35
# %bb.50:                               # %join.8.i.i.i.3
                                        #   in Loop: Header=BB41_38 Depth=1
	movl	$3, %esi
	cmpb	$78, 4(%r12,%rdx)
	jne	.LBB41_36
# %bb.51:                               # %loop.2.i.i.i.4
                                        #   in Loop: Header=BB41_38 Depth=1
	cmpq	$4, %rcx
	je	.LBB41_35
# %bb.53:                               # %join.8.i.i.i.4
                                        #   in Loop: Header=BB41_38 Depth=1
	movl	$4, %esi
	cmpb	$68, 5(%r12,%rdx)
	jne	.LBB41_36
# %bb.54:                               # %loop.2.i.i.i.5
                                        #   in Loop: Header=BB41_38 Depth=1
	cmpq	$5, %rcx
	movl	$5, %esi
	cmovaeq	%rax, %rsi
	jmp	.LBB41_36
.LBB41_43:                              #   in Loop: Header=BB41_38 Depth=1
	xorl	%esi, %esi
	jmp	.LBB41_36
.LBB41_55:
	movq	%r15, %rbx
.LBB41_56:                              # %arm.2
	movq	8(%rsp), %rax                   # 8-byte Reload
	movq	$1, (%rax)
	movq	$25, 8(%rax)
	jmp	.LBB41_61
.LBB41_57:
	movl	$25, %r14d
	jmp	.LBB41_60
.LBB41_58:
	movq	%rdx, %rcx
	movq	%rax, %r14
.LBB41_59:                              # %arm.2.i3
	movq	%r14, %rbx
	movl	$1, %r15d
	movq	%rcx, %r14
.LBB41_60:                              # %"molfile::rest.exit"
	movq	8(%rsp), %rax                   # 8-byte Reload
	movq	%r15, (%rax)
	movq	%r14, 8(%rax)
.LBB41_61:                              # %common.ret
	movq	%rbx, 16(%rax)
	addq	$72, %rsp
	popq	%rbx
	popq	%r12
	popq	%r13
	popq	%r14
	popq	%r15
	popq	%rbp
	retq
.LBB41_62:
	xorl	%r15d, %r15d
	xorl	%ebx, %ebx
	jmp	.LBB41_60
.Lfunc_end41:
	.size	"molfile::lists", .Lfunc_end41-"molfile::lists"
                                        # -- End function
	.section	".text.neighbours::read","ax",@progbits
	.p2align	4                               # -- Begin function neighbours::read
	.type	"neighbours::read",@function
"neighbours::read":                     # @"neighbours::read"
# %bb.0:                                # %start
	pushq	%rbp
	pushq	%r15
	pushq	%r14
	pushq	%r13
	pushq	%r12
	pushq	%rbx
	subq	$920, %rsp                      # imm = 0x398
	testq	%rdx, %rdx
	je	.LBB42_29
# %bb.1:                                # %join.5.i.preheader
	xorl	%r9d, %r9d
	xorl	%r10d, %r10d
	xorl	%eax, %eax
	jmp	.LBB42_4
	.p2align	4
.LBB42_2:                               # %"neighbours::scan::value_after.exit.i"
                                        #   in Loop: Header=BB42_4 Depth=1
	leaq	(%r10,%r10,4), %r10
	leaq	(%rbx,%r10,2), %rbx
	addq	$-48, %rbx
	cmpq	$1000, %rbx                     # imm = 0x3E8
	movl	$1000, %r10d                    # imm = 0x3E8
	cmovbq	%rbx, %r10
	jae	.LBB42_8
.LBB42_3:                               # %join.11.i
                                        #   in Loop: Header=BB42_4 Depth=1
	incq	%rax
	cmpb	$10, %r11b
	cmovaeq	%rax, %r9
	cmpq	%rax, %rdx
	je	.LBB42_11
.LBB42_4:                               # %join.5.i
                                        # =>This Inner Loop Header: Depth=1
	movzbl	(%rsi,%rax), %ebx
	leal	-48(%rbx), %r11d
	cmpb	$10, %r11b
	jb	.LBB42_2
# %bb.5:                                # %else.2.i.i
                                        #   in Loop: Header=BB42_4 Depth=1
	cmpb	$32, %bl
	ja	.LBB42_9
# %bb.6:                                # %else.2.i.i
                                        #   in Loop: Header=BB42_4 Depth=1
	movabsq	$4294977024, %r10               # imm = 0x100002600
	btq	%rbx, %r10
	jae	.LBB42_9
# %bb.7:                                #   in Loop: Header=BB42_4 Depth=1
	xorl	%r10d, %r10d
	jmp	.LBB42_3
.LBB42_8:
	movq	%r9, %rax
.LBB42_9:                               # %"neighbours::scan::fault.exit"
	cmpq	%rdx, %rax
	jae	.LBB42_11
# %bb.10:                               # %then.1
	movq	$1, (%rdi)
	movq	$21, 8(%rdi)
	movq	%rax, 16(%rdi)
	jmp	.LBB42_30
.LBB42_11:                              # %join.5.i.i.preheader
	xorl	%r15d, %r15d
	.p2align	4
.LBB42_12:                              # %join.5.i.i
                                        # =>This Inner Loop Header: Depth=1
	movzbl	(%rsi,%r15), %ebx
	leal	-48(%rbx), %eax
	cmpb	$10, %al
	jb	.LBB42_14
# %bb.13:                               # %join.8.i.i
                                        #   in Loop: Header=BB42_12 Depth=1
	incq	%r15
	cmpq	%r15, %rdx
	jne	.LBB42_12
	jmp	.LBB42_29
.LBB42_14:                              # %"neighbours::scan::skip.exit.i"
	cmpq	%r15, %rdx
	jbe	.LBB42_29
# %bb.15:                               # %join.3.i
	addq	$-48, %rbx
	incq	%r15
	cmpq	%rdx, %r15
	jae	.LBB42_19
	.p2align	4
.LBB42_16:                              # %join.5.i15.i
                                        # =>This Inner Loop Header: Depth=1
	movzbl	(%rsi,%r15), %eax
	leal	-48(%rax), %r9d
	cmpb	$9, %r9b
	ja	.LBB42_19
# %bb.17:                               # %join.8.i18.i
                                        #   in Loop: Header=BB42_16 Depth=1
	leaq	(%rbx,%rbx,4), %r9
	leaq	(%rax,%r9,2), %rax
	addq	$-48, %rax
	cmpq	$1000, %rax                     # imm = 0x3E8
	movl	$1000, %ebx                     # imm = 0x3E8
	cmovbq	%rax, %rbx
	incq	%r15
	cmpq	%r15, %rdx
	jne	.LBB42_16
# %bb.18:
	movq	%rdx, %r15
.LBB42_19:                              # %loop.2.i.preheader
	xorl	%r10d, %r10d
	xorl	%eax, %eax
	movq	%r15, %r9
	cmpq	%rdx, %r9
	jae	.LBB42_22
	.p2align	4
.LBB42_20:                              # %join.5.i.i.i
                                        # =>This Inner Loop Header: Depth=1
	movzbl	(%rsi,%r9), %r11d
	addb	$-48, %r11b
	cmpb	$10, %r11b
	jb	.LBB42_22
# %bb.21:                               # %join.8.i.i.i
                                        #   in Loop: Header=BB42_20 Depth=1
	incq	%r9
	cmpq	%r9, %rdx
	jne	.LBB42_20
	jmp	.LBB42_31
.LBB42_22:                              # %"neighbours::scan::skip.exit.i.i"
                                        # =>This Loop Header: Depth=1
                                        #     Child Loop BB42_24 Depth 2
	cmpq	%r9, %rdx
	jbe	.LBB42_31
# %bb.23:                               # %join.3.i.i
                                        #   in Loop: Header=BB42_22 Depth=1
	movzbl	(%rsi,%r9), %r14d
	leaq	-48(%r14), %r11
	cmpq	$1000, %r11                     # imm = 0x3E8
	movl	$1000, %r12d                    # imm = 0x3E8
	cmovbq	%r11, %r12
	xorl	%r11d, %r11d
	cmpq	$48, %r14
	cmovaeq	%r12, %r11
	incq	%r9
	cmpq	%rdx, %r9
	jae	.LBB42_27
	.p2align	4
.LBB42_24:                              # %join.5.i15.i.i
                                        #   Parent Loop BB42_22 Depth=1
                                        # =>  This Inner Loop Header: Depth=2
	movzbl	(%rsi,%r9), %r14d
	leal	-48(%r14), %ebp
	cmpb	$9, %bpl
	ja	.LBB42_27
# %bb.25:                               # %join.8.i18.i.i
                                        #   in Loop: Header=BB42_24 Depth=2
	leaq	(%r11,%r11,4), %r11
	leaq	(%r14,%r11,2), %r14
	addq	$-48, %r14
	cmpq	$1000, %r14                     # imm = 0x3E8
	movl	$1000, %r11d                    # imm = 0x3E8
	cmovbq	%r14, %r11
	incq	%r9
	cmpq	%r9, %rdx
	jne	.LBB42_24
# %bb.26:                               #   in Loop: Header=BB42_22 Depth=1
	movq	%rdx, %r9
.LBB42_27:                              # %join.5.i17
                                        #   in Loop: Header=BB42_22 Depth=1
	movq	%r11, %r14
	orq	%r10, %r14
	je	.LBB42_34
# %bb.28:                               # %join.8.i
                                        #   in Loop: Header=BB42_22 Depth=1
	movq	%r10, %r14
	subq	$1, %r14
	cmovbq	%r11, %r10
	cmpq	%r11, %r14
	adcq	$0, %rax
	testq	%r11, %r11
	cmoveq	%r11, %r10
	cmpq	%rdx, %r9
	jb	.LBB42_20
	jmp	.LBB42_22
.LBB42_29:                              # %then.4
	movq	$1, (%rdi)
	movq	$22, 8(%rdi)
	movq	%rdx, 16(%rdi)
.LBB42_30:                              # %common.ret
	addq	$920, %rsp                      # imm = 0x398
	popq	%rbx
	popq	%r12
	popq	%r13
	popq	%r14
	popq	%r15
	popq	%rbp
	retq
.LBB42_31:
	movq	%rdx, %r9
.LBB42_32:                              # %arm.8
	movq	$1, (%rdi)
	movq	$22, 8(%rdi)
	movq	%r9, 16(%rdi)
	jmp	.LBB42_30
.LBB42_34:                              # %then.6.i
	cmpq	%rdx, %r9
	jae	.LBB42_37
.LBB42_35:                              # %join.5.i.i.i.i
                                        # =>This Inner Loop Header: Depth=1
	movzbl	(%rsi,%r9), %r10d
	addb	$-48, %r10b
	cmpb	$10, %r10b
	jb	.LBB42_37
# %bb.36:                               # %join.8.i.i.i.i
                                        #   in Loop: Header=BB42_35 Depth=1
	incq	%r9
	cmpq	%r9, %rdx
	jne	.LBB42_35
	jmp	.LBB42_38
.LBB42_37:                              # %"neighbours::scan::skip.exit.i.i.i"
	cmpq	%r9, %rdx
	ja	.LBB42_32
.LBB42_38:                              # %arm.7
	leaq	-65(%rbx), %r10
	movl	$1, %r9d
	cmpq	$-64, %r10
	jae	.LBB42_40
# %bb.39:
	xorl	%r14d, %r14d
	movl	$1, %ebx
	jmp	.LBB42_64
.LBB42_40:                              # %join.6.i
	cmpq	$192, %rax
	jbe	.LBB42_42
# %bb.41:
	movl	$2, %ebx
	xorl	%r14d, %r14d
	jmp	.LBB42_64
.LBB42_42:                              # %join.9.i
	movq	%r8, 8(%rsp)                    # 8-byte Spill
	movq	%rcx, 16(%rsp)                  # 8-byte Spill
	movq	%rdi, %r12
	leaq	24(%rsp), %rdi
	xorl	%r14d, %r14d
	movq	%rdx, %r13
	movl	$384, %edx                      # imm = 0x180
	movq	%rsi, %rbp
	xorl	%esi, %esi
	callq	memset@PLT
	xorl	%edx, %edx
	jmp	.LBB42_44
.LBB42_43:                              # %"neighbours::bonds::put.exit.i.i.i"
                                        #   in Loop: Header=BB42_44 Depth=1
	testq	%rdx, %rdx
	cmoveq	%rsi, %rdx
	testq	%rsi, %rsi
	cmoveq	%rsi, %rdx
.LBB42_44:                              # %loop.2.i.i.i
                                        # =>This Loop Header: Depth=1
                                        #     Child Loop BB42_45 Depth 2
                                        #     Child Loop BB42_49 Depth 2
	cmpq	%r13, %r15
	jae	.LBB42_47
.LBB42_45:                              # %join.5.i.i.i.i.i
                                        #   Parent Loop BB42_44 Depth=1
                                        # =>  This Inner Loop Header: Depth=2
	movzbl	(%rbp,%r15), %esi
	addb	$-48, %sil
	cmpb	$10, %sil
	jb	.LBB42_47
# %bb.46:                               # %join.8.i.i.i.i.i
                                        #   in Loop: Header=BB42_45 Depth=2
	incq	%r15
	cmpq	%r15, %r13
	jne	.LBB42_45
	jmp	.LBB42_56
.LBB42_47:                              # %"neighbours::scan::skip.exit.i.i.i.i"
                                        #   in Loop: Header=BB42_44 Depth=1
	cmpq	%r15, %r13
	jbe	.LBB42_56
# %bb.48:                               # %join.3.i.i.i.i
                                        #   in Loop: Header=BB42_44 Depth=1
	movzbl	(%rbp,%r15), %edi
	leaq	-48(%rdi), %rsi
	cmpq	$1000, %rsi                     # imm = 0x3E8
	movl	$1000, %r8d                     # imm = 0x3E8
	cmovbq	%rsi, %r8
	xorl	%esi, %esi
	cmpq	$48, %rdi
	cmovaeq	%r8, %rsi
	incq	%r15
	cmpq	%r13, %r15
	jae	.LBB42_52
.LBB42_49:                              # %join.5.i15.i.i.i.i
                                        #   Parent Loop BB42_44 Depth=1
                                        # =>  This Inner Loop Header: Depth=2
	movzbl	(%rbp,%r15), %edi
	leal	-48(%rdi), %r8d
	cmpb	$9, %r8b
	ja	.LBB42_52
# %bb.50:                               # %join.8.i18.i.i.i.i
                                        #   in Loop: Header=BB42_49 Depth=2
	leaq	(%rsi,%rsi,4), %rsi
	leaq	(%rdi,%rsi,2), %rdi
	addq	$-48, %rdi
	cmpq	$1000, %rdi                     # imm = 0x3E8
	movl	$1000, %esi                     # imm = 0x3E8
	cmovbq	%rdi, %rsi
	incq	%r15
	cmpq	%r15, %r13
	jne	.LBB42_49
# %bb.51:                               #   in Loop: Header=BB42_44 Depth=1
	movq	%r13, %r15
.LBB42_52:                              # %join.5.i.i.i20
                                        #   in Loop: Header=BB42_44 Depth=1
	testq	%rdx, %rdx
	jne	.LBB42_54
# %bb.53:                               # %join.5.i.i.i20
                                        #   in Loop: Header=BB42_44 Depth=1
	cmpq	%rsi, %rbx
	jb	.LBB42_65
.LBB42_54:                              # %join.9.i.i.i
                                        #   in Loop: Header=BB42_44 Depth=1
	leaq	-1(%rdx), %rdi
	cmpq	%rsi, %rdi
	jae	.LBB42_43
# %bb.55:                               # %then.1.i6.i.i.i
                                        #   in Loop: Header=BB42_44 Depth=1
	cmpq	$255, %rdx
	movl	$255, %edi
	movl	$255, %r8d
	cmovbq	%rdx, %r8
	movb	%r8b, 24(%rsp,%r14)
	cmpq	$255, %rsi
	cmovbq	%rsi, %rdi
	movb	%dil, 25(%rsp,%r14)
	addq	$2, %r14
	jmp	.LBB42_43
.LBB42_56:                              # %"neighbours::bonds::fill.exit.thread.i.i"
	leaq	408(%rsp), %r15
	movl	$512, %edx                      # imm = 0x200
	movq	%r15, %rdi
	xorl	%esi, %esi
	callq	memset@PLT
	leaq	24(%rsp), %rsi
	movq	%rbx, %rdi
	movq	%r14, %rdx
	movq	%r15, %rcx
	callq	"block::admit"
	testb	%al, %al
	je	.LBB42_59
# %bb.57:                               # %"block::check.exit.i.i.i.thread.i"
	movq	%r12, %rdi
	cmpq	%r14, 8(%rsp)                   # 8-byte Folded Reload
	movq	16(%rsp), %rax                  # 8-byte Reload
	jae	.LBB42_61
# %bb.58:
	movl	$9, %ebx
	movl	$1, %r9d
	xorl	%r14d, %r14d
	jmp	.LBB42_64
.LBB42_59:                              # %"block::check.exit.thread.i.i.i.thread.i"
	leaq	24(%rsp), %rsi
	movq	%rbx, %rdi
	movq	%r14, %rdx
	callq	"block::refusal"
	movq	%rax, %rbx
	movq	%rdx, %r14
.LBB42_60:                              # %"neighbours::bonds_of.exit.i"
	movl	$1, %r9d
	movq	%r12, %rdi
	jmp	.LBB42_64
.LBB42_61:                              # %join.7.i.i.i
	testq	%r14, %r14
	je	.LBB42_63
# %bb.62:                               # %join.5.i.preheader.i.i.i
	leaq	24(%rsp), %rsi
	movq	%rax, %rdi
	movq	%r14, %rdx
	callq	memcpy@PLT
	movq	%r12, %rdi
.LBB42_63:                              # %"text::writing::put.exit.i.i.i"
	shrq	%r14
	xorl	%r9d, %r9d
.LBB42_64:                              # %"neighbours::block_of.exit"
	movq	%r9, (%rdi)
	movq	%rbx, 8(%rdi)
	movq	%r14, 16(%rdi)
	jmp	.LBB42_30
.LBB42_65:                              # %"neighbours::bonds::fill.exit.i.i"
	leaq	408(%rsp), %r15
	movl	$512, %edx                      # imm = 0x200
	movq	%r15, %rdi
	xorl	%esi, %esi
	callq	memset@PLT
	leaq	24(%rsp), %rsi
	movq	%rbx, %rdi
	movq	%r14, %rdx
	movq	%r15, %rcx
	callq	"block::admit"
	testb	%al, %al
	je	.LBB42_67
# %bb.66:                               # %"block::check.exit.i.i.i.i"
	shrq	%r14
	incq	%r14
	movl	$3, %ebx
	jmp	.LBB42_60
.LBB42_67:                              # %"block::check.exit.thread.i.i.i.i"
	leaq	24(%rsp), %rsi
	movq	%rbx, %rdi
	movq	%r14, %rdx
	callq	"block::refusal"
	shrq	%r14
	incq	%r14
	cmpq	$7, %rax
	movl	$3, %ebx
	cmovneq	%rax, %rbx
	cmovneq	%rdx, %r14
	jmp	.LBB42_60
.Lfunc_end42:
	.size	"neighbours::read", .Lfunc_end42-"neighbours::read"
                                        # -- End function
	.section	.rodata.cst16,"aM",@progbits,16
	.p2align	4, 0x0                          # -- Begin function wholefile::read_whole
.LCPI43_0:
	.quad	1                               # 0x1
	.quad	1                               # 0x1
	.section	".text.wholefile::read_whole","ax",@progbits
	.p2align	4
	.type	"wholefile::read_whole",@function
"wholefile::read_whole":                # @"wholefile::read_whole"
# %bb.0:                                # %start
	pushq	%rbp
	pushq	%r15
	pushq	%r14
	pushq	%r13
	pushq	%r12
	pushq	%rbx
	subq	$3072, %rsp                     # imm = 0xC00
	movq	$0, (%rsp)
	subq	$984, %rsp                      # imm = 0x3D8
	movq	%r8, %r15
	movq	%rcx, %r14
	movq	%rdx, %r12
	movq	%rsi, %r13
	movq	%rdi, %rbx
	pxor	%xmm0, %xmm0
	movdqa	%xmm0, (%rsp)
	movq	$0, 16(%rsp)
	leaq	60(%rsp), %rbp
	movl	$3996, %edx                     # imm = 0xF9C
	movq	%rbp, %rdi
	xorl	%esi, %esi
	callq	memset@PLT
	movq	%rsp, %rdi
	movl	$1998, %r8d                     # imm = 0x7CE
	movq	%r13, %rsi
	movq	%r12, %rdx
	movq	%rbp, %rcx
	callq	"molfile::kept_bonds"
	movq	8(%rsp), %r12
	movq	16(%rsp), %rdx
	cmpb	$0, (%rsp)
	je	.LBB43_2
# %bb.1:                                # %arm.4
	movq	$1, (%rbx)
	movq	%r12, 8(%rbx)
	movq	%rdx, 16(%rbx)
	jmp	.LBB43_31
.LBB43_2:                               # %arm.3
	movl	$1, %eax
	testq	%r12, %r12
	je	.LBB43_22
# %bb.3:                                # %join.3.i.i
	movq	%r15, 24(%rsp)                  # 8-byte Spill
	movq	%rdx, %r15
	shrq	%r15
	je	.LBB43_20
# %bb.4:                                # %join.5.i.i.i.preheader
	xorl	%ecx, %ecx
	movq	%rbx, 48(%rsp)                  # 8-byte Spill
	movq	%r14, 40(%rsp)                  # 8-byte Spill
	movq	%r15, 32(%rsp)                  # 8-byte Spill
	.p2align	4
.LBB43_5:                               # %join.5.i.i.i
                                        # =>This Loop Header: Depth=1
                                        #     Child Loop BB43_12 Depth 2
                                        #     Child Loop BB43_15 Depth 2
	movzwl	60(%rsp,%rcx,4), %esi
	leaq	-1(%rsi), %rdi
	movl	$3, %eax
	cmpq	%r12, %rdi
	jae	.LBB43_28
# %bb.6:                                # %join.5.i.i.i
                                        #   in Loop: Header=BB43_5 Depth=1
	movzwl	62(%rsp,%rcx,4), %edi
	leaq	-1(%rdi), %r8
	cmpq	%r12, %r8
	jae	.LBB43_28
# %bb.7:                                # %after.1.i.i.i.i
                                        #   in Loop: Header=BB43_5 Depth=1
	cmpw	%di, %si
	je	.LBB43_25
# %bb.8:                                # %join.14.i.i.i.i
                                        #   in Loop: Header=BB43_5 Depth=1
	movq	%rcx, %r11
	movq	%rcx, %r10
	testq	%rcx, %rcx
	je	.LBB43_17
# %bb.9:                                # %join.14.i.i.i.i
                                        #   in Loop: Header=BB43_5 Depth=1
	cmpq	$1, %rcx
	jne	.LBB43_11
# %bb.10:                               #   in Loop: Header=BB43_5 Depth=1
	xorl	%r9d, %r9d
	xorl	%r11d, %r11d
	xorl	%r10d, %r10d
	xorl	%r8d, %r8d
	jmp	.LBB43_14
	.p2align	4
.LBB43_11:                              # %vector.ph
                                        #   in Loop: Header=BB43_5 Depth=1
	movq	%rcx, %r9
	andq	$-2, %r9
	movabsq	$9223372036854775806, %r8       # imm = 0x7FFFFFFFFFFFFFFE
	andq	%rcx, %r8
	movd	%esi, %xmm0
	pshuflw	$0, %xmm0, %xmm0                # xmm0 = xmm0[0,0,0,0,4,5,6,7]
	movd	%edi, %xmm1
	pshuflw	$0, %xmm1, %xmm3                # xmm3 = xmm1[0,0,0,0,4,5,6,7]
	pxor	%xmm1, %xmm1
	xorl	%r10d, %r10d
	pxor	%xmm4, %xmm4
	pxor	%xmm2, %xmm2
	.p2align	4
.LBB43_12:                              # %vector.body
                                        #   Parent Loop BB43_5 Depth=1
                                        # =>  This Inner Loop Header: Depth=2
	movq	60(%rsp,%r10,4), %xmm5          # xmm5 = mem[0],zero
	pshuflw	$232, %xmm5, %xmm8              # xmm8 = xmm5[0,2,2,3,4,5,6,7]
	pshuflw	$237, %xmm5, %xmm6              # xmm6 = xmm5[1,3,2,3,4,5,6,7]
	movdqa	%xmm8, %xmm7
	pcmpeqw	%xmm0, %xmm7
	movdqa	%xmm6, %xmm5
	pcmpeqw	%xmm3, %xmm5
	pshufd	$0, %xmm7, %xmm9                # xmm9 = xmm7[0,0,0,0]
	pand	%xmm5, %xmm7
	pcmpeqw	%xmm0, %xmm6
	pcmpeqw	%xmm3, %xmm8
	pshufd	$0, %xmm8, %xmm10               # xmm10 = xmm8[0,0,0,0]
	pand	%xmm6, %xmm8
	por	%xmm7, %xmm8
	pshuflw	$80, %xmm8, %xmm7               # xmm7 = xmm8[0,0,1,1,4,5,6,7]
	pshufd	$80, %xmm7, %xmm7               # xmm7 = xmm7[0,0,1,1]
	por	%xmm7, %xmm1
	pshufhw	$85, %xmm9, %xmm7               # xmm7 = xmm9[0,1,2,3,5,5,5,5]
	movdqa	.LCPI43_0(%rip), %xmm8          # xmm8 = [1,1]
	pand	%xmm8, %xmm7
	paddq	%xmm4, %xmm7
	pshufd	$0, %xmm6, %xmm4                # xmm4 = xmm6[0,0,0,0]
	pshufhw	$85, %xmm4, %xmm4               # xmm4 = xmm4[0,1,2,3,5,5,5,5]
	pand	%xmm8, %xmm4
	paddq	%xmm7, %xmm4
	pshufhw	$85, %xmm10, %xmm6              # xmm6 = xmm10[0,1,2,3,5,5,5,5]
	pand	%xmm8, %xmm6
	paddq	%xmm2, %xmm6
	pshufd	$0, %xmm5, %xmm2                # xmm2 = xmm5[0,0,0,0]
	pshufhw	$85, %xmm2, %xmm2               # xmm2 = xmm2[0,1,2,3,5,5,5,5]
	pand	%xmm8, %xmm2
	paddq	%xmm6, %xmm2
	addq	$2, %r10
	cmpq	%r10, %r9
	jne	.LBB43_12
# %bb.13:                               # %middle.block
                                        #   in Loop: Header=BB43_5 Depth=1
	psllq	$63, %xmm1
	movmskpd	%xmm1, %eax
	testl	%eax, %eax
	setne	%r9b
	pshufd	$238, %xmm4, %xmm0              # xmm0 = xmm4[2,3,2,3]
	paddq	%xmm4, %xmm0
	movq	%xmm0, %r11
	pshufd	$238, %xmm2, %xmm0              # xmm0 = xmm2[2,3,2,3]
	paddq	%xmm2, %xmm0
	movq	%xmm0, %r10
	cmpq	%r8, %rcx
	je	.LBB43_16
.LBB43_14:                              # %join.5.i.i.i.i.i.preheader
                                        #   in Loop: Header=BB43_5 Depth=1
	movq	%r11, %rax
	movq	%r10, %rbp
	.p2align	4
.LBB43_15:                              # %join.5.i.i.i.i.i
                                        #   Parent Loop BB43_5 Depth=1
                                        # =>  This Inner Loop Header: Depth=2
	movzwl	60(%rsp,%r8,4), %r11d
	movzwl	62(%rsp,%r8,4), %r15d
	xorl	%r14d, %r14d
	cmpw	%si, %r11w
	sete	%r14b
	xorl	%r10d, %r10d
	cmpw	%di, %r15w
	sete	%r10b
	movl	%r14d, %r13d
	andb	%r10b, %r13b
	xorl	%ebx, %ebx
	cmpw	%di, %r11w
	sete	%bl
	xorl	%r11d, %r11d
	cmpw	%si, %r15w
	sete	%r11b
	movl	%ebx, %r15d
	andb	%r11b, %r15b
	orb	%r13b, %r15b
	orb	%r15b, %r9b
	addq	%rax, %r14
	addq	%r14, %r11
	addq	%rbp, %rbx
	addq	%rbx, %r10
	incq	%r8
	movq	%r11, %rax
	movq	%r10, %rbp
	cmpq	%r8, %rcx
	jne	.LBB43_15
.LBB43_16:                              # %"wholefile::look_back.exit.i.i.i.i"
                                        #   in Loop: Header=BB43_5 Depth=1
	testb	$1, %r9b
	movq	48(%rsp), %rbx                  # 8-byte Reload
	movq	40(%rsp), %r14                  # 8-byte Reload
	movq	32(%rsp), %r15                  # 8-byte Reload
	jne	.LBB43_27
.LBB43_17:                              # %"wholefile::fault.exit.i.i.i"
                                        #   in Loop: Header=BB43_5 Depth=1
	movl	$6, %eax
	cmpq	$5, %r11
	ja	.LBB43_28
# %bb.18:                               # %"wholefile::fault.exit.i.i.i"
                                        #   in Loop: Header=BB43_5 Depth=1
	cmpq	$6, %r10
	jae	.LBB43_28
# %bb.19:                               # %join.9.i.i.i
                                        #   in Loop: Header=BB43_5 Depth=1
	incq	%rcx
	cmpq	%r15, %rcx
	jne	.LBB43_5
.LBB43_20:                              # %arm.1.i
	cmpq	%rdx, 24(%rsp)                  # 8-byte Folded Reload
	jae	.LBB43_23
# %bb.21:
	movl	$9, %r12d
	xorl	%r15d, %r15d
	jmp	.LBB43_29
.LBB43_22:
	xorl	%r15d, %r15d
	movl	$1, %r12d
	jmp	.LBB43_30
.LBB43_23:                              # %join.7.i
	testq	%rdx, %rdx
	je	.LBB43_26
# %bb.24:                               # %join.5.i.i.preheader
	addq	%rdx, %rdx
	leaq	60(%rsp), %rsi
	movq	%r14, %rdi
	callq	memcpy@PLT
	xorl	%eax, %eax
	jmp	.LBB43_30
.LBB43_25:
	movl	$4, %eax
	jmp	.LBB43_28
.LBB43_26:
	xorl	%eax, %eax
	xorl	%r15d, %r15d
	jmp	.LBB43_30
.LBB43_27:
	movl	$5, %eax
.LBB43_28:                              # %arm.6.i.i.i
	incq	%rcx
	movq	%rax, %r12
	movq	%rcx, %r15
.LBB43_29:                              # %"wholefile::answer.exit"
	movl	$1, %eax
.LBB43_30:                              # %"wholefile::answer.exit"
	movq	%rax, (%rbx)
	movq	%r12, 8(%rbx)
	movq	%r15, 16(%rbx)
.LBB43_31:                              # %common.ret
	addq	$4056, %rsp                     # imm = 0xFD8
	popq	%rbx
	popq	%r12
	popq	%r13
	popq	%r14
	popq	%r15
	popq	%rbp
	retq
.Lfunc_end43:
	.size	"wholefile::read_whole", .Lfunc_end43-"wholefile::read_whole"
                                        # -- End function
	.section	".text.sdfile::header_from","ax",@progbits
	.p2align	4                               # -- Begin function sdfile::header_from
	.type	"sdfile::header_from",@function
"sdfile::header_from":                  # @"sdfile::header_from"
# %bb.0:                                # %start
	pushq	%rbp
	pushq	%r15
	pushq	%r14
	pushq	%r13
	pushq	%r12
	pushq	%rbx
	pushq	%rax
	movq	%rdx, %rbx
	cmpq	%rsi, %rdx
	jae	.LBB44_24
# %bb.1:                                # %join.5.lr.ph
	movq	%r8, %r12
	movq	%rsi, %r14
	movq	%rdi, %r15
	movq	%r8, %rbp
	subq	$1, %rbp
	jb	.LBB44_11
# %bb.2:                                # %join.5.preheader
	movq	%rcx, %r13
	jmp	.LBB44_3
	.p2align	4
.LBB44_22:                              # %join.8
                                        #   in Loop: Header=BB44_3 Depth=1
	movq	%r15, %rdi
	movq	%r14, %rsi
	movq	%rbx, %rdx
	callq	"text::line_end"
	leaq	1(%rax), %rbx
	cmpq	%rax, %r14
	cmovbeq	%r14, %rbx
	cmpq	%r14, %rbx
	jae	.LBB44_24
.LBB44_3:                               # %join.5
                                        # =>This Loop Header: Depth=1
                                        #     Child Loop BB44_6 Depth 2
                                        #       Child Loop BB44_9 Depth 3
	cmpb	$62, (%r15,%rbx)
	jne	.LBB44_22
# %bb.4:                                # %join.3.i
                                        #   in Loop: Header=BB44_3 Depth=1
	movq	%r15, %rdi
	movq	%r14, %rsi
	movq	%rbx, %rdx
	callq	"text::line_end"
	subq	%rbx, %rax
	je	.LBB44_22
# %bb.5:                                # %join.5.i.i.preheader
                                        #   in Loop: Header=BB44_3 Depth=1
	leaq	(%r15,%rbx), %rcx
	leaq	2(%r15), %rdx
	addq	%rbx, %rdx
	xorl	%esi, %esi
	jmp	.LBB44_6
.LBB44_20:                              # %"sdfile::is_tag.exit.i.loopexit.i"
                                        #   in Loop: Header=BB44_6 Depth=2
	cmpb	$62, (%rdi,%r12)
	je	.LBB44_24
	.p2align	4
.LBB44_21:                              # %join.8.i.i
                                        #   in Loop: Header=BB44_6 Depth=2
	incq	%rdx
	cmpq	%rsi, %rax
	je	.LBB44_22
.LBB44_6:                               # %join.5.i.i
                                        #   Parent Loop BB44_3 Depth=1
                                        # =>  This Loop Header: Depth=2
                                        #       Child Loop BB44_9 Depth 3
	cmpb	$60, (%rcx,%rsi)
	sete	%dil
	incq	%rsi
	movq	%rax, %r8
	subq	%rsi, %r8
	cmpq	%r12, %r8
	seta	%r8b
	andb	%dil, %r8b
	cmpb	$1, %r8b
	jne	.LBB44_21
# %bb.7:                                # %join.6.i.i.i
                                        #   in Loop: Header=BB44_6 Depth=2
	movzbl	(%rcx,%rsi), %edi
	cmpb	(%r13), %dil
	jne	.LBB44_21
# %bb.8:                                # %loop.2.i.i.i.i.preheader
                                        #   in Loop: Header=BB44_6 Depth=2
	leaq	(%rcx,%rsi), %rdi
	xorl	%r8d, %r8d
	.p2align	4
.LBB44_9:                               # %loop.2.i.i.i.i
                                        #   Parent Loop BB44_3 Depth=1
                                        #     Parent Loop BB44_6 Depth=2
                                        # =>    This Inner Loop Header: Depth=3
	cmpq	%r8, %rbp
	je	.LBB44_20
# %bb.10:                               # %join.8.i.i.i.i
                                        #   in Loop: Header=BB44_9 Depth=3
	movzbl	(%rdx,%r8), %r9d
	cmpb	1(%r13,%r8), %r9b
	leaq	1(%r8), %r8
	je	.LBB44_9
	jmp	.LBB44_21
	.p2align	4
.LBB44_23:                              # %join.8.us
                                        #   in Loop: Header=BB44_11 Depth=1
	movq	%r15, %rdi
	movq	%r14, %rsi
	movq	%rbx, %rdx
	callq	"text::line_end"
	leaq	1(%rax), %rbx
	cmpq	%rax, %r14
	cmovbeq	%r14, %rbx
	cmpq	%r14, %rbx
	jae	.LBB44_24
.LBB44_11:                              # %join.5.us
                                        # =>This Loop Header: Depth=1
                                        #     Child Loop BB44_14 Depth 2
	cmpb	$62, (%r15,%rbx)
	jne	.LBB44_23
# %bb.12:                               # %join.3.i.us
                                        #   in Loop: Header=BB44_11 Depth=1
	movq	%r15, %rdi
	movq	%r14, %rsi
	movq	%rbx, %rdx
	callq	"text::line_end"
	cmpq	%rbx, %rax
	je	.LBB44_23
# %bb.13:                               # %join.5.us.i.i.us.preheader
                                        #   in Loop: Header=BB44_11 Depth=1
	leaq	1(%rbx), %rcx
	movb	$62, %dl
	.p2align	4
.LBB44_14:                              # %join.5.us.i.i.us
                                        #   Parent Loop BB44_11 Depth=1
                                        # =>  This Inner Loop Header: Depth=2
	cmpb	$60, %dl
	jne	.LBB44_16
# %bb.15:                               # %join.5.us.i.i.us
                                        #   in Loop: Header=BB44_14 Depth=2
	cmpq	%rcx, %rax
	je	.LBB44_16
# %bb.18:                               # %join.6.i.us.i.i.us
                                        #   in Loop: Header=BB44_14 Depth=2
	movzbl	(%r15,%rcx), %edx
	cmpb	$62, %dl
	je	.LBB44_24
# %bb.19:                               # %join.5.us.i.i.us.backedge
                                        #   in Loop: Header=BB44_14 Depth=2
	incq	%rcx
	jmp	.LBB44_14
	.p2align	4
.LBB44_16:                              # %join.8.us.i.i.us
                                        #   in Loop: Header=BB44_14 Depth=2
	cmpq	%rcx, %rax
	je	.LBB44_23
# %bb.17:                               # %join.8.us.i.join.5.us.i.backedge_crit_edge.i.us
                                        #   in Loop: Header=BB44_14 Depth=2
	movzbl	(%r15,%rcx), %edx
	incq	%rcx
	jmp	.LBB44_14
.LBB44_24:                              # %common.ret
	movq	%rbx, %rax
	addq	$8, %rsp
	popq	%rbx
	popq	%r12
	popq	%r13
	popq	%r14
	popq	%r15
	popq	%rbp
	retq
.Lfunc_end44:
	.size	"sdfile::header_from", .Lfunc_end44-"sdfile::header_from"
                                        # -- End function
	.section	.text.tteuyomal_balaban,"ax",@progbits
	.globl	tteuyomal_balaban               # -- Begin function tteuyomal_balaban
	.p2align	4
	.type	tteuyomal_balaban,@function
tteuyomal_balaban:                      # @tteuyomal_balaban
# %bb.0:                                # %start
	pushq	%rbp
	pushq	%r15
	pushq	%r14
	pushq	%rbx
	subq	$24, %rsp
	movq	%r8, %r14
	movq	%rcx, %rbx
	movq	%rdx, %rcx
	movq	%rdi, %rax
	xorl	%edx, %edx
	testq	%rsi, %rsi
	sete	%dl
	shll	$12, %edx
	addq	%rsi, %rdx
	xorl	%r15d, %r15d
	testq	%rbx, %rbx
	sete	%bpl
	xorps	%xmm0, %xmm0
	movaps	%xmm0, (%rsp)
	movq	$0, 16(%rsp)
	movq	%rsp, %rdi
	movq	%rax, %rsi
	callq	"balaban::index"
	movq	8(%rsp), %rcx
	cmpb	$1, (%rsp)
	jne	.LBB45_2
# %bb.1:                                # %arm.1.i.i.i.i
	movq	16(%rsp), %rax
	movzbl	%cl, %ecx
	shlq	$8, %rax
	orq	%rcx, %rax
	jmp	.LBB45_5
.LBB45_2:                               # %arm.2.i.i.i.i
	testq	%r14, %r14
	je	.LBB45_3
# %bb.4:                                # %join.5.i.i.i.i.i.i
	movb	%bpl, %r15b
	shll	$12, %r15d
	movq	%rcx, (%rbx,%r15)
	xorl	%eax, %eax
	jmp	.LBB45_5
.LBB45_3:
	movl	$9, %eax
.LBB45_5:                               # %"tteuyomal_c::blocks::tteuyomal_balaban.exit"
	addq	$24, %rsp
	popq	%rbx
	popq	%r14
	popq	%r15
	popq	%rbp
	retq
.Lfunc_end45:
	.size	tteuyomal_balaban, .Lfunc_end45-tteuyomal_balaban
                                        # -- End function
	.section	.text.tteuyomal_check_block,"ax",@progbits
	.globl	tteuyomal_check_block           # -- Begin function tteuyomal_check_block
	.p2align	4
	.type	tteuyomal_check_block,@function
tteuyomal_check_block:                  # @tteuyomal_check_block
# %bb.0:                                # %start
	pushq	%r15
	pushq	%r14
	pushq	%r12
	pushq	%rbx
	subq	$520, %rsp                      # imm = 0x208
	movq	%rdx, %rbx
	movq	%rdi, %r15
	xorl	%r14d, %r14d
	testq	%rsi, %rsi
	sete	%r14b
	shll	$12, %r14d
	addq	%rsi, %r14
	leaq	8(%rsp), %r12
	movl	$512, %edx                      # imm = 0x200
	movq	%r12, %rdi
	xorl	%esi, %esi
	callq	memset@PLT
	movq	%r15, %rdi
	movq	%r14, %rsi
	movq	%rbx, %rdx
	movq	%r12, %rcx
	callq	"block::admit"
	testb	%al, %al
	je	.LBB46_2
# %bb.1:                                # %"block::check.exit.thread.i.i.i"
	xorl	%eax, %eax
	jmp	.LBB46_3
.LBB46_2:                               # %arm.2.i.i.i.i
	movq	%r15, %rdi
	movq	%r14, %rsi
	movq	%rbx, %rdx
	callq	"block::refusal"
	movq	%rax, %rcx
	movq	%rdx, %rax
	movzbl	%cl, %ecx
	shlq	$8, %rax
	orq	%rcx, %rax
.LBB46_3:                               # %"tteuyomal_c::blocks::tteuyomal_check_block.exit"
	addq	$520, %rsp                      # imm = 0x208
	popq	%rbx
	popq	%r12
	popq	%r14
	popq	%r15
	retq
.Lfunc_end46:
	.size	tteuyomal_check_block, .Lfunc_end46-tteuyomal_check_block
                                        # -- End function
	.section	.text.tteuyomal_compose,"ax",@progbits
	.globl	tteuyomal_compose               # -- Begin function tteuyomal_compose
	.p2align	4
	.type	tteuyomal_compose,@function
tteuyomal_compose:                      # @tteuyomal_compose
# %bb.0:                                # %start
	pushq	%rbp
	pushq	%r15
	pushq	%r14
	pushq	%rbx
	subq	$72, %rsp
	movq	%rcx, %r14
	movq	%rdx, %rbx
	movq	%rsi, %rdx
	xorl	%esi, %esi
	testq	%rdi, %rdi
	sete	%sil
	shll	$12, %esi
	addq	%rdi, %rsi
	xorl	%r15d, %r15d
	testq	%rbx, %rbx
	sete	%bpl
	xorps	%xmm0, %xmm0
	movaps	%xmm0, 48(%rsp)
	movaps	%xmm0, 32(%rsp)
	movaps	%xmm0, 16(%rsp)
	movaps	%xmm0, (%rsp)
	movq	%rsp, %rdi
	xorl	%ecx, %ecx
	callq	"compose::fields"
	cmpb	$0, (%rsp)
	movq	8(%rsp), %rdx
	movq	16(%rsp), %rcx
	je	.LBB47_2
# %bb.1:                                # %arm.1.i2.i.i.i
	movzbl	%dl, %eax
	shlq	$8, %rcx
	orq	%rax, %rcx
	movq	%rcx, %rax
	jmp	.LBB47_4
.LBB47_2:                               # %arm.2.i1.i.i.i
	movl	$9, %eax
	cmpq	$5, %r14
	jb	.LBB47_4
# %bb.3:                                # %join.5.i.i.preheader.i.i.i.i.i
	movb	%bpl, %r15b
	shll	$12, %r15d
	movups	24(%rsp), %xmm0
	movq	40(%rsp), %rax
	movq	%rdx, (%rbx,%r15)
	movq	%rcx, 8(%rbx,%r15)
	movups	%xmm0, 16(%rbx,%r15)
	movq	%rax, 32(%rbx,%r15)
	xorl	%eax, %eax
.LBB47_4:                               # %"tteuyomal_c::decks::tteuyomal_compose.exit"
	addq	$72, %rsp
	popq	%rbx
	popq	%r14
	popq	%r15
	popq	%rbp
	retq
.Lfunc_end47:
	.size	tteuyomal_compose, .Lfunc_end47-tteuyomal_compose
                                        # -- End function
	.section	.text.tteuyomal_compose_six,"ax",@progbits
	.globl	tteuyomal_compose_six           # -- Begin function tteuyomal_compose_six
	.p2align	4
	.type	tteuyomal_compose_six,@function
tteuyomal_compose_six:                  # @tteuyomal_compose_six
# %bb.0:                                # %start
	pushq	%rbp
	pushq	%r15
	pushq	%r14
	pushq	%rbx
	subq	$72, %rsp
	movq	%rcx, %r14
	movq	%rdx, %rbx
	movq	%rsi, %rdx
	xorl	%esi, %esi
	testq	%rdi, %rdi
	sete	%sil
	shll	$12, %esi
	addq	%rdi, %rsi
	xorl	%r15d, %r15d
	testq	%rbx, %rbx
	sete	%bpl
	xorps	%xmm0, %xmm0
	movaps	%xmm0, 48(%rsp)
	movaps	%xmm0, 32(%rsp)
	movaps	%xmm0, 16(%rsp)
	movaps	%xmm0, (%rsp)
	movq	%rsp, %rdi
	xorl	%ecx, %ecx
	callq	"compose::fields"
	cmpb	$0, (%rsp)
	movq	8(%rsp), %rdx
	movq	16(%rsp), %rcx
	je	.LBB48_2
# %bb.1:                                # %arm.1.i2.i.i.i
	movzbl	%dl, %eax
	shlq	$8, %rcx
	orq	%rax, %rcx
	movq	%rcx, %rax
	jmp	.LBB48_4
.LBB48_2:                               # %arm.2.i1.i.i.i
	movl	$9, %eax
	cmpq	$6, %r14
	jb	.LBB48_4
# %bb.3:                                # %join.5.i.i.preheader.i.i.i.i.i
	movb	%bpl, %r15b
	shll	$12, %r15d
	movups	24(%rsp), %xmm0
	movups	40(%rsp), %xmm1
	movq	%rdx, (%rbx,%r15)
	movq	%rcx, 8(%rbx,%r15)
	movups	%xmm0, 16(%rbx,%r15)
	movups	%xmm1, 32(%rbx,%r15)
	xorl	%eax, %eax
.LBB48_4:                               # %"tteuyomal_c::decks::tteuyomal_compose_six.exit"
	addq	$72, %rsp
	popq	%rbx
	popq	%r14
	popq	%r15
	popq	%rbp
	retq
.Lfunc_end48:
	.size	tteuyomal_compose_six, .Lfunc_end48-tteuyomal_compose_six
                                        # -- End function
	.section	.text.tteuyomal_contributions,"ax",@progbits
	.globl	tteuyomal_contributions         # -- Begin function tteuyomal_contributions
	.p2align	4
	.type	tteuyomal_contributions,@function
tteuyomal_contributions:                # @tteuyomal_contributions
# %bb.0:                                # %start
	pushq	%rbp
	pushq	%r15
	pushq	%r14
	pushq	%r13
	pushq	%r12
	pushq	%rbx
	subq	$3072, %rsp                     # imm = 0xC00
	movq	$0, (%rsp)
	subq	$3072, %rsp                     # imm = 0xC00
	movq	$0, (%rsp)
	subq	$1336, %rsp                     # imm = 0x538
	movq	%rcx, %r13
	movq	%rdx, %rbx
	movq	%rdi, %r12
	xorl	%edx, %edx
	testq	%rsi, %rsi
	sete	%dl
	shll	$12, %edx
	leaq	(%rsi,%rdx), %rbp
	testq	%rcx, %rcx
	sete	%al
	testq	%r9, %r9
	sete	%cl
	cmpq	$0, 7536(%rsp)
	je	.LBB49_1
# %bb.4:                                # %join.3.i.i.i
	movq	%r9, %r15
	movq	%r8, 8(%rsp)                    # 8-byte Spill
	movq	%rdx, 16(%rsp)                  # 8-byte Spill
	movb	%cl, 6(%rsp)                    # 1-byte Spill
	movb	%al, 7(%rsp)                    # 1-byte Spill
	movq	%rsi, 24(%rsp)                  # 8-byte Spill
	leaq	4432(%rsp), %r14
	movl	$512, %edx                      # imm = 0x200
	movq	%r14, %rdi
	xorl	%esi, %esi
	callq	memset@PLT
	movq	%r12, %rdi
	movq	%rbp, %rsi
	movq	%rbx, %rdx
	movq	%r14, %rcx
	callq	"block::admit"
	testb	%al, %al
	je	.LBB49_99
# %bb.5:                                # %join.5.i.i.i.i.i
	movq	%r13, 40(%rsp)                  # 8-byte Spill
	movq	%r15, 48(%rsp)                  # 8-byte Spill
	leaq	4944(%rsp), %rdi
	movl	$2016, %edx                     # imm = 0x7E0
	xorl	%esi, %esi
	callq	memset@PLT
	pxor	%xmm0, %xmm0
	movdqa	%xmm0, 208(%rsp)
	movdqa	%xmm0, 224(%rsp)
	movdqa	%xmm0, 240(%rsp)
	movdqa	%xmm0, 256(%rsp)
	testq	%r12, %r12
	je	.LBB49_18
# %bb.6:                                # %join.5.lr.ph.i.i.i.i.i.i
	movq	%rbx, 32(%rsp)                  # 8-byte Spill
	xorl	%r14d, %r14d
	movl	$64, %r9d
	movl	$64, %ecx
	subq	%r12, %rcx
	cmovbq	%r14, %rcx
	movq	$-1, %r15
                                        # kill: def $cl killed $cl killed $rcx
	shrq	%cl, %r15
	cmpq	$64, %r12
	cmovbq	%r12, %r9
	xorl	%r13d, %r13d
	movq	%r12, 72(%rsp)                  # 8-byte Spill
	jmp	.LBB49_7
	.p2align	4
.LBB49_13:                              # %"half::put_row.exit.i.i.i.i.i.i"
                                        #   in Loop: Header=BB49_7 Depth=1
	decb	%bl
	movb	%bl, 208(%rsp,%rbp)
	addq	%rbp, %rbp
	subq	%rbp, %r14
	addq	$126, %r14
	cmpq	%r12, %r13
	je	.LBB49_14
.LBB49_7:                               # %join.5.i.i.i.i.i.i
                                        # =>This Loop Header: Depth=1
                                        #     Child Loop BB49_8 Depth 2
	movq	%r13, %rbp
	pxor	%xmm0, %xmm0
	movdqa	%xmm0, 2416(%rsp)
	movdqa	%xmm0, 2400(%rsp)
	movdqa	%xmm0, 2384(%rsp)
	movdqa	%xmm0, 2368(%rsp)
	movl	$1, %edx
	movl	%ebp, %ecx
	shlq	%cl, %rdx
	movq	%r15, %rax
	btcq	%r13, %rax
	xorl	%ecx, %ecx
	xorl	%ebx, %ebx
	jmp	.LBB49_8
	.p2align	4
.LBB49_10:                              # %join.8.i.i.i.i.i.i.i
                                        #   in Loop: Header=BB49_8 Depth=2
	movq	%rsi, %rdx
	testq	%rsi, %rsi
	je	.LBB49_11
.LBB49_8:                               # %join.5.i.i.i.i.i.i.i
                                        #   Parent Loop BB49_7 Depth=1
                                        # =>  This Inner Loop Header: Depth=2
	rep		bsfq	%rdx, %rdi
	leaq	-1(%rdx), %rsi
	orq	4432(%rsp,%rdi,8), %rcx
	movb	%bl, 2368(%rsp,%rdi)
	andq	%rdx, %rsi
	jne	.LBB49_10
# %bb.9:                                # %then.6.i.i.i.i.i.i.i
                                        #   in Loop: Header=BB49_8 Depth=2
	movq	%rcx, %rsi
	andq	%rax, %rsi
	xorq	%rsi, %rax
	incb	%bl
	xorl	%ecx, %ecx
	jmp	.LBB49_10
	.p2align	4
.LBB49_11:                              # %"block::search::from_atom.exit.i.i.i.i.i.i"
                                        #   in Loop: Header=BB49_7 Depth=1
	leaq	1(%rbp), %r13
	cmpq	$64, %rbp
	setb	%al
	cmpq	%r9, %r13
	setb	%cl
	andb	%al, %cl
	cmpb	$1, %cl
	jne	.LBB49_13
# %bb.12:                               # %join.11.preheader.i.i.i.i.i.i.i
                                        #   in Loop: Header=BB49_7 Depth=1
	movq	%rbp, %rdx
	notq	%rdx
	addq	%r9, %rdx
	leaq	(%rsp,%r13), %rsi
	addq	$2368, %rsi                     # imm = 0x940
	movq	%r14, %rax
	shrq	%rax
	leaq	(%rsp,%rax), %rdi
	addq	$4944, %rdi                     # imm = 0x1350
	movq	%r9, %r12
	callq	memcpy@PLT
	movq	%r12, %r9
	movq	72(%rsp), %r12                  # 8-byte Reload
	jmp	.LBB49_13
.LBB49_1:                               # %then.1.i.i.i
	leaq	4944(%rsp), %r14
	movl	$512, %edx                      # imm = 0x200
	movq	%r14, %rdi
	xorl	%esi, %esi
	callq	memset@PLT
	movq	%r12, %rdi
	movq	%rbp, %rsi
	movq	%rbx, %rdx
	movq	%r14, %rcx
	callq	"block::admit"
	testb	%al, %al
	je	.LBB49_3
# %bb.2:                                # %"block::check.exit.thread.i.i.i.i"
	movl	$9, %eax
	jmp	.LBB49_103
.LBB49_99:                              # %"shares::contributions.exit.thread.i.i.i"
	movq	%r12, %rdi
	movq	%rbp, %rsi
	movq	%rbx, %rdx
	callq	"block::refusal"
	shlq	$8, %rdx
	jmp	.LBB49_102
.LBB49_14:                              # %arm.3.i.i.i.i
	movq	32(%rsp), %rbp                  # 8-byte Reload
	shrq	%rbp
	movl	$9, %eax
	cmpq	%rbp, 8(%rsp)                   # 8-byte Folded Reload
	jb	.LBB49_101
# %bb.15:                               # %join.5.lr.ph.i.i2.i.i.i.i
	leaq	2368(%rsp), %rdi
	xorl	%r14d, %r14d
	movl	$1536, %edx                     # imm = 0x600
	xorl	%esi, %esi
	callq	memset@PLT
	movq	%r12, %r15
	andq	$-2, %r15
	movq	%rbp, %rax
	andq	$-4, %rax
	movq	%rax, 64(%rsp)                  # 8-byte Spill
	movq	24(%rsp), %rax                  # 8-byte Reload
	movq	16(%rsp), %rcx                  # 8-byte Reload
	leaq	(%rcx,%rax), %rbx
	incq	%rbx
	movl	$1, %r10d
	movl	$2, %eax
	movq	%rax, 16(%rsp)                  # 8-byte Spill
	movq	%r15, 56(%rsp)                  # 8-byte Spill
	jmp	.LBB49_16
	.p2align	4
.LBB49_94:                              # %"shares::flows::add_start.exit.i.i.i.i.i.i"
                                        #   in Loop: Header=BB49_16 Depth=1
	incq	16(%rsp)                        # 8-byte Folded Spill
	movq	8(%rsp), %rax                   # 8-byte Reload
	movq	%rax, %r14
	movq	%r13, %r10
	cmpq	%r12, %rax
	movq	56(%rsp), %r15                  # 8-byte Reload
	je	.LBB49_95
.LBB49_16:                              # %join.8.i.i.i.i.i.i
                                        # =>This Loop Header: Depth=1
                                        #     Child Loop BB49_23 Depth 2
                                        #     Child Loop BB49_26 Depth 2
                                        #     Child Loop BB49_32 Depth 2
                                        #     Child Loop BB49_36 Depth 2
                                        #       Child Loop BB49_38 Depth 3
                                        #     Child Loop BB49_43 Depth 2
                                        #       Child Loop BB49_49 Depth 3
                                        #     Child Loop BB49_68 Depth 2
                                        #     Child Loop BB49_70 Depth 2
                                        #     Child Loop BB49_72 Depth 2
                                        #     Child Loop BB49_80 Depth 2
                                        #     Child Loop BB49_83 Depth 2
                                        #     Child Loop BB49_85 Depth 2
                                        #       Child Loop BB49_87 Depth 3
                                        #     Child Loop BB49_93 Depth 2
	leaq	1(%r14), %r9
	cmpq	$64, %r14
	movq	%r9, 8(%rsp)                    # 8-byte Spill
	movq	%r10, 24(%rsp)                  # 8-byte Spill
	pxor	%xmm0, %xmm0
	jb	.LBB49_20
# %bb.17:                               # %then.1.i.i.i.i.i.i.i
                                        #   in Loop: Header=BB49_16 Depth=1
	movdqa	%xmm0, 128(%rsp)
	movdqa	%xmm0, 112(%rsp)
	movdqa	%xmm0, 96(%rsp)
	jmp	.LBB49_30
	.p2align	4
.LBB49_20:                              # %join.3.i.i.i.i.i.i.i
                                        #   in Loop: Header=BB49_16 Depth=1
	movdqa	%xmm0, 848(%rsp)
	movdqa	%xmm0, 832(%rsp)
	movdqa	%xmm0, 816(%rsp)
	movdqa	%xmm0, 800(%rsp)
	testq	%r14, %r14
	je	.LBB49_104
# %bb.21:                               # %join.5.i.i.i.i.i.i.i.i.preheader
                                        #   in Loop: Header=BB49_16 Depth=1
	movl	$1, %eax
	movq	%r9, %rcx
	cmpq	$4, %r14
	jb	.LBB49_25
# %bb.22:                               # %join.5.i.i.i.i.i.i.i.i.preheader.new
                                        #   in Loop: Header=BB49_16 Depth=1
	movl	%r14d, %edx
	andl	$60, %edx
	xorl	%esi, %esi
	movq	%r9, %rcx
	.p2align	4
.LBB49_23:                              # %join.5.i.i.i.i.i.i.i.i
                                        #   Parent Loop BB49_16 Depth=1
                                        # =>  This Inner Loop Header: Depth=2
	movzbl	4942(%rsp,%rcx), %edi
	movb	%dil, 799(%rsp,%rax)
	subq	%rax, %rcx
	movq	%rax, %rdi
	notq	%rdi
	movzbl	5005(%rsp,%rcx), %r8d
	movb	%r8b, 800(%rsp,%rax)
	leaq	63(%rcx,%rdi), %r8
	leaq	126(%rcx,%rdi), %rcx
	leaq	2(%rax), %rdi
	movzbl	5005(%rsp,%r8), %r8d
	movb	%r8b, 801(%rsp,%rax)
	subq	%rdi, %rcx
	leaq	3(%rax), %rdi
	movzbl	5005(%rsp,%rcx), %r8d
	movb	%r8b, 802(%rsp,%rax)
	negq	%rdi
	addq	%rdi, %rcx
	addq	$126, %rcx
	addq	$4, %rax
	addq	$4, %rsi
	cmpq	%rdx, %rsi
	jne	.LBB49_23
# %bb.24:                               # %"half::column.exit.i.i.i.i.i.i.i.unr-lcssa"
                                        #   in Loop: Header=BB49_16 Depth=1
	testb	$3, %r14b
	je	.LBB49_27
.LBB49_25:                              # %join.5.i.i.i.i.i.i.i.i.epil.preheader
                                        #   in Loop: Header=BB49_16 Depth=1
	movl	%r14d, %edx
	andl	$3, %edx
	.p2align	4
.LBB49_26:                              # %join.5.i.i.i.i.i.i.i.i.epil
                                        #   Parent Loop BB49_16 Depth=1
                                        # =>  This Inner Loop Header: Depth=2
	movzbl	4942(%rsp,%rcx), %esi
	movb	%sil, 799(%rsp,%rax)
	subq	%rax, %rcx
	addq	$63, %rcx
	incq	%rax
	decq	%rdx
	jne	.LBB49_26
.LBB49_27:                              # %"half::column.exit.i.i.i.i.i.i.i"
                                        #   in Loop: Header=BB49_16 Depth=1
	movdqa	800(%rsp), %xmm0
	movaps	816(%rsp), %xmm1
	movaps	832(%rsp), %xmm2
	movaps	848(%rsp), %xmm3
	movaps	%xmm3, 320(%rsp)
	movaps	%xmm2, 304(%rsp)
	movaps	%xmm1, 288(%rsp)
	movdqa	%xmm0, 272(%rsp)
	cmpq	$63, %r14
	jne	.LBB49_28
	jmp	.LBB49_29
.LBB49_104:                             # %"half::column.exit.thread.i.i.i.i.i.i.i"
                                        #   in Loop: Header=BB49_16 Depth=1
	movdqa	%xmm0, 320(%rsp)
	movdqa	%xmm0, 304(%rsp)
	movdqa	%xmm0, 288(%rsp)
	movdqa	%xmm0, 272(%rsp)
.LBB49_28:                              # %join.5.lr.ph.i.i.i.i.i.i.i.i
                                        #   in Loop: Header=BB49_16 Depth=1
	movl	$127, %eax
	subq	%r14, %rax
	imulq	%r14, %rax
	shrq	%rax
	leaq	(%rsp,%rax), %rsi
	addq	$4944, %rsi                     # imm = 0x1350
	leaq	(%rsp,%r9), %rdi
	addq	$272, %rdi                      # imm = 0x110
	movl	$63, %edx
	subq	%r14, %rdx
	callq	memcpy@PLT
.LBB49_29:                              # %"half::along.exit.i.i.i.i.i.i.i"
                                        #   in Loop: Header=BB49_16 Depth=1
	movdqa	272(%rsp), %xmm0
	movaps	288(%rsp), %xmm1
	movaps	304(%rsp), %xmm2
	movaps	320(%rsp), %xmm3
	movaps	%xmm3, 128(%rsp)
	movaps	%xmm2, 112(%rsp)
	movaps	%xmm1, 96(%rsp)
.LBB49_30:                              # %"half::row.exit.i.i.i.i.i.i"
                                        #   in Loop: Header=BB49_16 Depth=1
	movdqa	%xmm0, 80(%rsp)
	movdqa	80(%rsp), %xmm0
	movdqa	96(%rsp), %xmm1
	movdqa	112(%rsp), %xmm2
	movdqa	128(%rsp), %xmm3
	movdqa	%xmm3, 192(%rsp)
	movdqa	%xmm2, 176(%rsp)
	movdqa	%xmm1, 160(%rsp)
	movdqa	%xmm0, 144(%rsp)
	leaq	272(%rsp), %rdi
	xorl	%r13d, %r13d
	movl	$520, %edx                      # imm = 0x208
	xorl	%esi, %esi
	callq	memset@PLT
	cmpq	$1, %r12
	je	.LBB49_34
# %bb.31:                               # %join.7.i.i.i.i.i.i.i.preheader
                                        #   in Loop: Header=BB49_16 Depth=1
	xorl	%r13d, %r13d
	.p2align	4
.LBB49_32:                              # %join.7.i.i.i.i.i.i.i
                                        #   Parent Loop BB49_16 Depth=1
                                        # =>  This Inner Loop Header: Depth=2
	movzbl	144(%rsp,%r13), %eax
	movl	$1, %edx
	movl	%r13d, %ecx
	shlq	%cl, %rdx
	orq	%rdx, 272(%rsp,%rax,8)
	movl	$2, %eax
	shlq	%cl, %rax
	movzbl	145(%rsp,%r13), %ecx
	orq	%rax, 272(%rsp,%rcx,8)
	addq	$2, %r13
	cmpq	%r13, %r15
	jne	.LBB49_32
# %bb.33:                               # %"shares::sweeps::by_level.exit.i.i.i.i.i.i.unr-lcssa"
                                        #   in Loop: Header=BB49_16 Depth=1
	testb	$1, %r12b
	je	.LBB49_35
.LBB49_34:                              # %join.7.i.i.i.i.i.i.i.epil.preheader
                                        #   in Loop: Header=BB49_16 Depth=1
	movl	$1, %eax
	movl	%r13d, %ecx
	shlq	%cl, %rax
	movzbl	144(%rsp,%r13), %ecx
	orq	%rax, 272(%rsp,%rcx,8)
.LBB49_35:                              # %"shares::sweeps::by_level.exit.i.i.i.i.i.i"
                                        #   in Loop: Header=BB49_16 Depth=1
	leaq	1328(%rsp), %rdi
	leaq	272(%rsp), %rsi
	movl	$520, %edx                      # imm = 0x208
	callq	memcpy@PLT
	movzbl	208(%rsp,%r14), %r15d
	leaq	800(%rsp), %rdi
	xorl	%r14d, %r14d
	movl	$520, %edx                      # imm = 0x208
	xorl	%esi, %esi
	callq	memset@PLT
	movq	8(%rsp), %r13                   # 8-byte Reload
	movq	$1, 800(%rsp,%r13,8)
	movq	1328(%rsp), %rax
	xorl	%ecx, %ecx
	jmp	.LBB49_36
	.p2align	4
.LBB49_40:                              # %else.7.i.i.i.i.i.i.i.i.i
                                        #   in Loop: Header=BB49_36 Depth=2
	movq	1328(%rsp,%rcx,8), %r14
	movq	1336(%rsp,%rcx,8), %rax
	incq	%rcx
	cmpq	%r15, %rcx
	ja	.LBB49_42
.LBB49_36:                              # %join.5.i.i.i.i.i.i.i.i.i
                                        #   Parent Loop BB49_16 Depth=1
                                        # =>  This Loop Header: Depth=2
                                        #       Child Loop BB49_38 Depth 3
	testq	%rax, %rax
	je	.LBB49_40
# %bb.37:                               # %then.6.i.i.i.i.i.i.i.i.i
                                        #   in Loop: Header=BB49_36 Depth=2
	rep		bsfq	%rax, %rdx
	movq	4432(%rsp,%rdx,8), %rdi
	xorl	%esi, %esi
	andq	%r14, %rdi
	je	.LBB49_39
	.p2align	4
.LBB49_38:                              # %join.5.i.i.i.i.i.i.i.i.i.i
                                        #   Parent Loop BB49_16 Depth=1
                                        #     Parent Loop BB49_36 Depth=2
                                        # =>    This Inner Loop Header: Depth=3
	movq	%rdi, %r8
	rep		bsfq	%rdi, %r9
	decq	%rdi
	addq	808(%rsp,%r9,8), %rsi
	andq	%r8, %rdi
	jne	.LBB49_38
.LBB49_39:                              # %"shares::sweeps::pull.exit.i.i.i.i.i.i.i.i.i"
                                        #   in Loop: Header=BB49_36 Depth=2
	leaq	-1(%rax), %rdi
	andq	%rdi, %rax
	addq	808(%rsp,%rdx,8), %rsi
	cmpq	$1000001, %rsi                  # imm = 0xF4241
	movl	$1000001, %edi                  # imm = 0xF4241
	cmovbq	%rsi, %rdi
	movq	%rdi, 808(%rsp,%rdx,8)
	cmpq	%r15, %rcx
	jbe	.LBB49_36
.LBB49_42:                              # %"shares::sweeps::counts.exit.i.i.i.i.i.i.i"
                                        #   in Loop: Header=BB49_16 Depth=1
	leaq	6960(%rsp), %r14
	leaq	800(%rsp), %rsi
	movl	$520, %edx                      # imm = 0x208
	movq	%r14, %rdi
	callq	memcpy@PLT
	leaq	3912(%rsp), %rdi
	movl	$520, %edx                      # imm = 0x208
	movq	%r14, %rsi
	callq	memcpy@PLT
	movq	%r13, %rsi
	movq	24(%rsp), %r9                   # 8-byte Reload
	movq	%r9, %r13
	movq	64(%rsp), %r8                   # 8-byte Reload
	jmp	.LBB49_43
	.p2align	4
.LBB49_55:                              #   in Loop: Header=BB49_43 Depth=2
	movq	%r13, %rax
	xorl	%edx, %edx
	divq	%rcx
.LBB49_56:                              #   in Loop: Header=BB49_43 Depth=2
	imulq	%rdi, %rax
	cmpq	$1000001, %rax                  # imm = 0xF4241
	movl	$1000001, %r13d                 # imm = 0xF4241
	cmovbq	%rax, %r13
.LBB49_57:                              # %"shares::common::common.exit.i.i.i.i.i.i.i.i"
                                        #   in Loop: Header=BB49_43 Depth=2
	cmpq	%r12, %rsi
	jae	.LBB49_58
.LBB49_43:                              # %loop.2.i.i.i.i.i.i.i.i
                                        #   Parent Loop BB49_16 Depth=1
                                        # =>  This Loop Header: Depth=2
                                        #       Child Loop BB49_49 Depth 3
	incq	%rsi
	cmpq	%r12, %rsi
	ja	.LBB49_58
# %bb.44:                               # %join.5.i.i13.i.i.i.i.i.i
                                        #   in Loop: Header=BB49_43 Depth=2
	movq	3912(%rsp,%rsi,8), %rdi
	testq	%rdi, %rdi
	je	.LBB49_105
# %bb.45:                               # %ok.2.i.i.i.i.i.i.i.i.i
                                        #   in Loop: Header=BB49_43 Depth=2
	movq	%r13, %rax
	orq	%rdi, %rax
	shrq	$32, %rax
	je	.LBB49_46
# %bb.47:                               #   in Loop: Header=BB49_43 Depth=2
	movq	%r13, %rax
	xorl	%edx, %edx
	divq	%rdi
	movq	%rdx, %rcx
	movq	%r13, %rax
	movq	%rdi, %rdx
	testq	%rcx, %rcx
	jne	.LBB49_49
	jmp	.LBB49_57
	.p2align	4
.LBB49_46:                              #   in Loop: Header=BB49_43 Depth=2
	movl	%r13d, %eax
	xorl	%edx, %edx
	divl	%edi
	movl	%edx, %ecx
	movq	%r13, %rax
	movq	%rdi, %rdx
	testq	%rcx, %rcx
	jne	.LBB49_49
	jmp	.LBB49_57
	.p2align	4
.LBB49_51:                              #   in Loop: Header=BB49_49 Depth=3
	xorl	%edx, %edx
	divq	%rcx
	movq	%rcx, %rax
	testq	%rdx, %rdx
	je	.LBB49_53
.LBB49_49:                              # %ok.7.i.i.i.i.i.i.i.i.i.i
                                        #   Parent Loop BB49_16 Depth=1
                                        #     Parent Loop BB49_43 Depth=2
                                        # =>    This Inner Loop Header: Depth=3
	movq	%rdx, %rcx
	movq	%rax, %rdx
	orq	%rcx, %rdx
	shrq	$32, %rdx
	jne	.LBB49_51
# %bb.50:                               #   in Loop: Header=BB49_49 Depth=3
                                        # kill: def $eax killed $eax killed $rax
	xorl	%edx, %edx
	divl	%ecx
                                        # kill: def $edx killed $edx def $rdx
	movq	%rcx, %rax
	testq	%rdx, %rdx
	jne	.LBB49_49
.LBB49_53:                              # %ok.6.i.i.i.i.i.i.i.i.i
                                        #   in Loop: Header=BB49_43 Depth=2
	movq	%r13, %rax
	orq	%rcx, %rax
	shrq	$32, %rax
	jne	.LBB49_55
# %bb.54:                               #   in Loop: Header=BB49_43 Depth=2
	movl	%r13d, %eax
	xorl	%edx, %edx
	divl	%ecx
                                        # kill: def $eax killed $eax def $rax
	jmp	.LBB49_56
	.p2align	4
.LBB49_58:                              # %"shares::common::common_start.exit.i.i.i.i.i.i.i"
                                        #   in Loop: Header=BB49_16 Depth=1
	cmpq	$1000000, %r13                  # imm = 0xF4240
	ja	.LBB49_100
# %bb.59:                               # %join.3.i15.i.i.i.i.i.i
                                        #   in Loop: Header=BB49_16 Depth=1
	testq	%r9, %r9
	je	.LBB49_105
# %bb.60:                               # %ok.5.i.i.i.i.i.i.i
                                        #   in Loop: Header=BB49_16 Depth=1
	movq	%r13, %rax
	orq	%r9, %rax
	shrq	$32, %rax
	je	.LBB49_61
# %bb.62:                               #   in Loop: Header=BB49_16 Depth=1
	movq	%r13, %rax
	xorl	%edx, %edx
	divq	%r9
	testq	%rbp, %rbp
	jne	.LBB49_64
	jmp	.LBB49_71
	.p2align	4
.LBB49_61:                              #   in Loop: Header=BB49_16 Depth=1
	movl	%r13d, %eax
	xorl	%edx, %edx
	divl	%r9d
                                        # kill: def $eax killed $eax def $rax
	testq	%rbp, %rbp
	je	.LBB49_71
.LBB49_64:                              #   in Loop: Header=BB49_16 Depth=1
	cmpq	$1, %rax
	je	.LBB49_71
# %bb.65:                               # %join.8.i.i.i.i.i.i.i.i.preheader
                                        #   in Loop: Header=BB49_16 Depth=1
	cmpq	$8, 32(%rsp)                    # 8-byte Folded Reload
	jae	.LBB49_67
# %bb.66:                               #   in Loop: Header=BB49_16 Depth=1
	xorl	%ecx, %ecx
	jmp	.LBB49_70
	.p2align	4
.LBB49_67:                              # %vector.ph18
                                        #   in Loop: Header=BB49_16 Depth=1
	movq	%rax, %xmm0
	pshufd	$68, %xmm0, %xmm0               # xmm0 = xmm0[0,1,0,1]
	xorl	%ecx, %ecx
	.p2align	4
.LBB49_68:                              # %vector.body21
                                        #   Parent Loop BB49_16 Depth=1
                                        # =>  This Inner Loop Header: Depth=2
	movdqu	2368(%rsp,%rcx,8), %xmm1
	movdqu	2384(%rsp,%rcx,8), %xmm2
	movdqa	%xmm0, %xmm3
	psrlq	$32, %xmm3
	movdqa	%xmm1, %xmm4
	pmuludq	%xmm3, %xmm4
	movdqa	%xmm1, %xmm5
	psrlq	$32, %xmm5
	pmuludq	%xmm0, %xmm5
	paddq	%xmm4, %xmm5
	psllq	$32, %xmm5
	pmuludq	%xmm0, %xmm1
	paddq	%xmm5, %xmm1
	pmuludq	%xmm2, %xmm3
	movdqa	%xmm2, %xmm4
	psrlq	$32, %xmm4
	pmuludq	%xmm0, %xmm4
	paddq	%xmm3, %xmm4
	psllq	$32, %xmm4
	pmuludq	%xmm0, %xmm2
	paddq	%xmm4, %xmm2
	movdqu	%xmm1, 2368(%rsp,%rcx,8)
	movdqu	%xmm2, 2384(%rsp,%rcx,8)
	addq	$4, %rcx
	cmpq	%rcx, %r8
	jne	.LBB49_68
# %bb.69:                               # %middle.block26
                                        #   in Loop: Header=BB49_16 Depth=1
	movq	%r8, %rcx
	cmpq	%r8, %rbp
	je	.LBB49_71
	.p2align	4
.LBB49_70:                              # %join.8.i.i.i.i.i.i.i.i
                                        #   Parent Loop BB49_16 Depth=1
                                        # =>  This Inner Loop Header: Depth=2
	movq	2368(%rsp,%rcx,8), %rdx
	imulq	%rax, %rdx
	movq	%rdx, 2368(%rsp,%rcx,8)
	incq	%rcx
	cmpq	%rcx, %rbp
	jne	.LBB49_70
.LBB49_71:                              # %"shares::flows::raise.exit.i.i.i.i.i.i.i"
                                        #   in Loop: Header=BB49_16 Depth=1
	leaq	800(%rsp), %rdi
	movl	$520, %edx                      # imm = 0x208
	xorl	%esi, %esi
	callq	memset@PLT
	movq	16(%rsp), %rcx                  # 8-byte Reload
	jmp	.LBB49_72
	.p2align	4
.LBB49_76:                              #   in Loop: Header=BB49_72 Depth=2
	movq	%r13, %rax
	xorl	%edx, %edx
	divq	%rsi
	movq	%rax, 800(%rsp,%rcx,8)
	cmpq	%r12, %rcx
	leaq	1(%rcx), %rcx
	jae	.LBB49_78
.LBB49_72:                              # %loop.4.i.i.i.i.i.i.i.i
                                        #   Parent Loop BB49_16 Depth=1
                                        # =>  This Inner Loop Header: Depth=2
	cmpq	%r12, %rcx
	ja	.LBB49_78
# %bb.73:                               # %join.7.i.i.i.i.i.i.i.i
                                        #   in Loop: Header=BB49_72 Depth=2
	movq	3912(%rsp,%rcx,8), %rsi
	testq	%rsi, %rsi
	je	.LBB49_105
# %bb.74:                               # %ok.9.i.i.i.i.i.i.i.i
                                        #   in Loop: Header=BB49_72 Depth=2
	movq	%r13, %rax
	orq	%rsi, %rax
	shrq	$32, %rax
	jne	.LBB49_76
# %bb.75:                               #   in Loop: Header=BB49_72 Depth=2
	movl	%r13d, %eax
	xorl	%edx, %edx
	divl	%esi
                                        # kill: def $eax killed $eax def $rax
	movq	%rax, 800(%rsp,%rcx,8)
	cmpq	%r12, %rcx
	leaq	1(%rcx), %rcx
	jb	.LBB49_72
	.p2align	4
.LBB49_78:                              # %"shares::flows::weights.exit.i.i.i.i.i.i.i"
                                        #   in Loop: Header=BB49_16 Depth=1
	leaq	6960(%rsp), %r14
	leaq	800(%rsp), %rsi
	movl	$520, %edx                      # imm = 0x208
	movq	%r14, %rdi
	callq	memcpy@PLT
	leaq	1848(%rsp), %rdi
	movl	$520, %edx                      # imm = 0x208
	movq	%r14, %rsi
	callq	memcpy@PLT
	leaq	272(%rsp), %rdi
	xorl	%r14d, %r14d
	movl	$520, %edx                      # imm = 0x208
	xorl	%esi, %esi
	callq	memset@PLT
	cmpb	$3, %r15b
	jb	.LBB49_82
# %bb.79:                               # %vector.ph
                                        #   in Loop: Header=BB49_16 Depth=1
	leaq	1(%r15), %rax
	movl	%eax, %r14d
	andl	$-4, %r14d
	movq	%r14, %rcx
	negq	%rcx
	leaq	1320(%rsp), %rdx
	leaq	(%rdx,%r15,8), %rdx
	xorl	%esi, %esi
	leaq	288(%rsp), %rdi
	.p2align	4
.LBB49_80:                              # %vector.body
                                        #   Parent Loop BB49_16 Depth=1
                                        # =>  This Inner Loop Header: Depth=2
	movdqu	-16(%rdx,%rsi,8), %xmm0
	movdqu	(%rdx,%rsi,8), %xmm1
	pshufd	$78, %xmm1, %xmm1               # xmm1 = xmm1[2,3,0,1]
	pshufd	$78, %xmm0, %xmm0               # xmm0 = xmm0[2,3,0,1]
	movdqu	%xmm1, -16(%rdi)
	movdqu	%xmm0, (%rdi)
	addq	$-4, %rsi
	addq	$32, %rdi
	cmpq	%rsi, %rcx
	jne	.LBB49_80
# %bb.81:                               # %middle.block
                                        #   in Loop: Header=BB49_16 Depth=1
	cmpl	%r14d, %eax
	je	.LBB49_84
.LBB49_82:                              # %join.7.i.i.i.i.i.i.i.i.i.preheader
                                        #   in Loop: Header=BB49_16 Depth=1
	movq	%r15, %rax
	subq	%r14, %rax
	leaq	(%rsp,%r14,8), %rcx
	addq	$272, %rcx                      # imm = 0x110
	.p2align	4
.LBB49_83:                              # %join.7.i.i.i.i.i.i.i.i.i
                                        #   Parent Loop BB49_16 Depth=1
                                        # =>  This Inner Loop Header: Depth=2
	movq	1328(%rsp,%rax,8), %rdx
	movq	%rdx, (%rcx)
	addq	$8, %rcx
	addq	$-1, %rax
	jb	.LBB49_83
.LBB49_84:                              # %"shares::sweeps::reversed.exit.i.i.i.i.i.i.i.i"
                                        #   in Loop: Header=BB49_16 Depth=1
	movq	272(%rsp), %rax
	xorl	%ecx, %ecx
	xorl	%edx, %edx
	jmp	.LBB49_85
	.p2align	4
.LBB49_89:                              # %else.7.i.i54.i.i.i.i.i.i.i
                                        #   in Loop: Header=BB49_85 Depth=2
	movq	272(%rsp,%rdx,8), %rcx
	movq	280(%rsp,%rdx,8), %rax
	incq	%rdx
	cmpq	%r15, %rdx
	ja	.LBB49_91
.LBB49_85:                              # %join.5.i.i18.i.i.i.i.i.i.i
                                        #   Parent Loop BB49_16 Depth=1
                                        # =>  This Loop Header: Depth=2
                                        #       Child Loop BB49_87 Depth 3
	testq	%rax, %rax
	je	.LBB49_89
# %bb.86:                               # %then.6.i.i23.i.i.i.i.i.i.i
                                        #   in Loop: Header=BB49_85 Depth=2
	rep		bsfq	%rax, %rsi
	movq	4432(%rsp,%rsi,8), %r8
	xorl	%edi, %edi
	andq	%rcx, %r8
	je	.LBB49_88
	.p2align	4
.LBB49_87:                              # %join.5.i.i.i32.i.i.i.i.i.i.i
                                        #   Parent Loop BB49_16 Depth=1
                                        #     Parent Loop BB49_85 Depth=2
                                        # =>    This Inner Loop Header: Depth=3
	movq	%r8, %r9
	rep		bsfq	%r8, %r10
	decq	%r8
	addq	1856(%rsp,%r10,8), %rdi
	andq	%r9, %r8
	jne	.LBB49_87
.LBB49_88:                              # %"shares::sweeps::pull.exit.i.i43.i.i.i.i.i.i.i"
                                        #   in Loop: Header=BB49_85 Depth=2
	leaq	-1(%rax), %r8
	andq	%r8, %rax
	addq	1856(%rsp,%rsi,8), %rdi
	cmpq	$64000000, %rdi                 # imm = 0x3D09000
	movl	$64000000, %r8d                 # imm = 0x3D09000
	cmovbq	%rdi, %r8
	movq	%r8, 1856(%rsp,%rsi,8)
	cmpq	%r15, %rdx
	jbe	.LBB49_85
.LBB49_91:                              # %"shares::sweeps::onward.exit.i.i.i.i.i.i.i"
                                        #   in Loop: Header=BB49_16 Depth=1
	testq	%rbp, %rbp
	je	.LBB49_94
# %bb.92:                               # %join.5.i62.i.i.i.i.i.i.i.preheader
                                        #   in Loop: Header=BB49_16 Depth=1
	xorl	%eax, %eax
	.p2align	4
.LBB49_93:                              # %join.5.i62.i.i.i.i.i.i.i
                                        #   Parent Loop BB49_16 Depth=1
                                        # =>  This Inner Loop Header: Depth=2
	movzbl	-1(%rbx,%rax,2), %ecx
	movzbl	(%rbx,%rax,2), %edx
	movzbl	143(%rsp,%rcx), %esi
                                        # kill: def $ecx killed $ecx killed $rcx def $rcx
	shll	$3, %ecx
	movzbl	143(%rsp,%rdx), %edi
                                        # kill: def $edx killed $edx killed $rdx def $rdx
	shll	$3, %edx
	movq	1848(%rsp,%rdx), %r8
	leal	1(%rsi), %r9d
	imulq	3912(%rsp,%rcx), %r8
	xorl	%r10d, %r10d
	cmpl	%edi, %r9d
	cmovneq	%r10, %r8
	movq	1848(%rsp,%rcx), %rcx
	incl	%edi
	imulq	3912(%rsp,%rdx), %rcx
	cmpl	%esi, %edi
	cmovneq	%r10, %rcx
	addq	2368(%rsp,%rax,8), %r8
	addq	%rcx, %r8
	movq	%r8, 2368(%rsp,%rax,8)
	incq	%rax
	cmpq	%rax, %rbp
	jne	.LBB49_93
	jmp	.LBB49_94
.LBB49_3:                               # %arm.2.i.i.i.i
	movq	%r12, %rdi
	movq	%rbp, %rsi
	movq	%rbx, %rdx
	callq	"block::refusal"
	movq	%rax, %rcx
	movq	%rdx, %rax
	movzbl	%cl, %ecx
	shlq	$8, %rax
	orq	%rcx, %rax
	jmp	.LBB49_103
.LBB49_18:                              # %arm.3.thread.i.i.i.i
	shrq	%rbx
	movl	$9, %eax
	cmpq	%rbx, 8(%rsp)                   # 8-byte Folded Reload
	jb	.LBB49_101
# %bb.19:                               # %"shares::flows::fill.exit.thread21.i.i.i.i.i"
	leaq	2368(%rsp), %rdi
	movl	$1536, %edx                     # imm = 0x600
	xorl	%esi, %esi
	callq	memset@PLT
	movl	$1, %r13d
	jmp	.LBB49_96
.LBB49_100:                             # %"shares::flows::add_start.exit.i.thread.i.i.i.i.i"
	movl	$8, %eax
.LBB49_101:                             # %"shares::contributions.exit.thread15.i.i.i"
	xorl	%edx, %edx
.LBB49_102:                             # %arm.1.i.i.i.i
	movzbl	%al, %eax
	orq	%rdx, %rax
.LBB49_103:                             # %"tteuyomal_c::blocks::tteuyomal_contributions.exit"
	addq	$7480, %rsp                     # imm = 0x1D38
	popq	%rbx
	popq	%r12
	popq	%r13
	popq	%r14
	popq	%r15
	popq	%rbp
	retq
.LBB49_95:                              # %"shares::flows::fill.exit.i.i.i.i.i"
	movq	%rbp, %rbx
.LBB49_96:                              # %join.8.i.i.i.i.i
	movzbl	6(%rsp), %eax                   # 1-byte Folded Reload
	xorl	%r14d, %r14d
	movb	%al, %r14b
	shll	$12, %r14d
	testq	%rbx, %rbx
	je	.LBB49_98
# %bb.97:                               # %join.5.i17.preheader.i.i.i.i.i
	xorl	%eax, %eax
	movzbl	7(%rsp), %ecx                   # 1-byte Folded Reload
	movb	%cl, %al
	shll	$12, %eax
	movq	40(%rsp), %rdi                  # 8-byte Reload
	addq	%rax, %rdi
	shlq	$3, %rbx
	leaq	2368(%rsp), %rsi
	movq	%rbx, %rdx
	callq	memcpy@PLT
.LBB49_98:                              # %join.5.i.i.i6.i.i.i
	movq	48(%rsp), %rax                  # 8-byte Reload
	movq	%r13, (%rax,%r14)
	xorl	%eax, %eax
	jmp	.LBB49_103
.LBB49_105:                             # %trap.1.i.i.i.i.i.i.i.i.i
	ud2
.Lfunc_end49:
	.size	tteuyomal_contributions, .Lfunc_end49-tteuyomal_contributions
                                        # -- End function
	.section	.text.tteuyomal_count_sets,"ax",@progbits
	.globl	tteuyomal_count_sets            # -- Begin function tteuyomal_count_sets
	.p2align	4
	.type	tteuyomal_count_sets,@function
tteuyomal_count_sets:                   # @tteuyomal_count_sets
# %bb.0:                                # %start
	pushq	%rbp
	pushq	%r15
	pushq	%r14
	pushq	%rbx
	subq	$24, %rsp
	movq	%r8, %r14
	movq	%rcx, %rbx
	movq	%rdx, %rcx
	movq	%rdi, %rax
	xorl	%edx, %edx
	testq	%rsi, %rsi
	sete	%dl
	shll	$12, %edx
	addq	%rsi, %rdx
	xorl	%r15d, %r15d
	testq	%rbx, %rbx
	sete	%bpl
	xorps	%xmm0, %xmm0
	movaps	%xmm0, (%rsp)
	movq	$0, 16(%rsp)
	movq	%rsp, %rdi
	movq	%rax, %rsi
	callq	"sets::count"
	cmpb	$1, (%rsp)
	jne	.LBB50_2
# %bb.1:                                # %arm.1.i.i.i
	movzbl	8(%rsp), %ecx
	movq	16(%rsp), %rax
	shlq	$8, %rax
	orq	%rcx, %rax
	jmp	.LBB50_4
.LBB50_2:                               # %arm.2.i.i.i
	movl	$9, %eax
	cmpq	$2, %r14
	jb	.LBB50_4
# %bb.3:                                # %join.5.i.i.preheader.i.i.i
	movb	%bpl, %r15b
	shll	$12, %r15d
	movups	8(%rsp), %xmm0
	movups	%xmm0, (%rbx,%r15)
	xorl	%eax, %eax
.LBB50_4:                               # %"tteuyomal_c::blocks::tteuyomal_count_sets.exit"
	addq	$24, %rsp
	popq	%rbx
	popq	%r14
	popq	%r15
	popq	%rbp
	retq
.Lfunc_end50:
	.size	tteuyomal_count_sets, .Lfunc_end50-tteuyomal_count_sets
                                        # -- End function
	.section	.text.tteuyomal_farthest,"ax",@progbits
	.globl	tteuyomal_farthest              # -- Begin function tteuyomal_farthest
	.p2align	4
	.type	tteuyomal_farthest,@function
tteuyomal_farthest:                     # @tteuyomal_farthest
# %bb.0:                                # %start
	pushq	%rbp
	pushq	%r15
	pushq	%r14
	pushq	%r13
	pushq	%r12
	pushq	%rbx
	subq	$536, %rsp                      # imm = 0x218
	movq	%r9, 16(%rsp)                   # 8-byte Spill
	movq	%rcx, %r15
	movq	%rdx, %r13
	movq	%rdi, %r12
	xorl	%ebp, %ebp
	testq	%rsi, %rsi
	sete	%bpl
	shll	$12, %ebp
	addq	%rsi, %rbp
	movq	%r8, 8(%rsp)                    # 8-byte Spill
	testq	%r8, %r8
	sete	%bl
	leaq	24(%rsp), %r14
	movl	$512, %edx                      # imm = 0x200
	movq	%r14, %rdi
	xorl	%esi, %esi
	callq	memset@PLT
	movq	%r12, %rdi
	movq	%rbp, %rsi
	movq	%r13, %rdx
	movq	%r14, %rcx
	callq	"block::admit"
	testb	%al, %al
	je	.LBB51_1
# %bb.2:                                # %join.5.i.i.i.i
	decq	%r15
	movl	$18, %eax
	cmpq	%r12, %r15
	jae	.LBB51_10
# %bb.3:                                # %join.8.i.i.i.i
	movl	$1, %esi
	movl	%r15d, %ecx
	shlq	%cl, %rsi
	xorl	%r9d, %r9d
	movb	%bl, %r9b
	shll	$12, %r9d
	xorl	%eax, %eax
	movl	$64, %ecx
	subq	%r12, %rcx
	cmovbq	%rax, %rcx
	movq	$-1, %rdx
                                        # kill: def $cl killed $cl killed $rcx
	shrq	%cl, %rdx
	btcq	%r15, %rdx
	xorl	%ecx, %ecx
	jmp	.LBB51_4
	.p2align	4
.LBB51_6:                               # %join.8.i.i.i.i.i
                                        #   in Loop: Header=BB51_4 Depth=1
	movq	%rdi, %rsi
	testq	%rdi, %rdi
	je	.LBB51_7
.LBB51_4:                               # %join.5.i.i.i.i.i
                                        # =>This Inner Loop Header: Depth=1
	rep		bsfq	%rsi, %r8
	leaq	-1(%rsi), %rdi
	orq	24(%rsp,%r8,8), %rax
	andq	%rsi, %rdi
	jne	.LBB51_6
# %bb.5:                                # %then.6.i.i.i.i.i
                                        #   in Loop: Header=BB51_4 Depth=1
	movq	%rax, %rdi
	andq	%rdx, %rdi
	xorq	%rdi, %rdx
	incb	%cl
	xorl	%eax, %eax
	jmp	.LBB51_6
.LBB51_1:                               # %then.3.i.i.i.i
	movq	%r12, %rdi
	movq	%rbp, %rsi
	movq	%r13, %rdx
	callq	"block::refusal"
	movq	%rax, %rcx
	movq	%rdx, %rax
	movzbl	%cl, %ecx
	shlq	$8, %rax
	orq	%rcx, %rax
	jmp	.LBB51_10
.LBB51_7:                               # %arm.2.i.i.i
	cmpq	$0, 16(%rsp)                    # 8-byte Folded Reload
	je	.LBB51_8
# %bb.9:                                # %join.5.i.i2.i.i.i
	decb	%cl
	movzbl	%cl, %eax
	movq	8(%rsp), %rcx                   # 8-byte Reload
	movq	%rax, (%rcx,%r9)
	xorl	%eax, %eax
	jmp	.LBB51_10
.LBB51_8:
	movl	$9, %eax
.LBB51_10:                              # %"tteuyomal_c::blocks::tteuyomal_farthest.exit"
	addq	$536, %rsp                      # imm = 0x218
	popq	%rbx
	popq	%r12
	popq	%r13
	popq	%r14
	popq	%r15
	popq	%rbp
	retq
.Lfunc_end51:
	.size	tteuyomal_farthest, .Lfunc_end51-tteuyomal_farthest
                                        # -- End function
	.section	.text.tteuyomal_indices,"ax",@progbits
	.globl	tteuyomal_indices               # -- Begin function tteuyomal_indices
	.p2align	4
	.type	tteuyomal_indices,@function
tteuyomal_indices:                      # @tteuyomal_indices
# %bb.0:                                # %start
	pushq	%rbp
	pushq	%r15
	pushq	%r14
	pushq	%rbx
	subq	$568, %rsp                      # imm = 0x238
	movq	%r8, %r14
	movq	%rcx, %rbx
	movq	%rdx, %rcx
	movq	%rdi, %rax
	xorl	%edx, %edx
	testq	%rsi, %rsi
	sete	%dl
	shll	$12, %edx
	addq	%rsi, %rdx
	xorl	%r15d, %r15d
	testq	%rbx, %rbx
	sete	%bpl
	xorps	%xmm0, %xmm0
	movaps	%xmm0, (%rsp)
	movaps	%xmm0, 16(%rsp)
	movaps	%xmm0, 32(%rsp)
	movq	$0, 48(%rsp)
	movq	%rsp, %rdi
	leaq	56(%rsp), %r8
	movq	%rax, %rsi
	callq	"reach::opened"
	movq	8(%rsp), %rcx
	cmpb	$1, (%rsp)
	jne	.LBB52_2
# %bb.1:                                # %arm.1.i.i.i.i
	movq	16(%rsp), %rax
	movzbl	%cl, %ecx
	shlq	$8, %rax
	orq	%rcx, %rax
	jmp	.LBB52_4
.LBB52_2:                               # %arm.2.i.i.i.i
	movl	$9, %eax
	cmpq	$5, %r14
	jb	.LBB52_4
# %bb.3:                                # %join.5.i.i.preheader.i.i.i.i.i
	movb	%bpl, %r15b
	shll	$12, %r15d
	movaps	16(%rsp), %xmm0
	movaps	32(%rsp), %xmm1
	movq	%rcx, (%rbx,%r15)
	movups	%xmm0, 8(%rbx,%r15)
	movups	%xmm1, 24(%rbx,%r15)
	xorl	%eax, %eax
.LBB52_4:                               # %"tteuyomal_c::blocks::tteuyomal_indices.exit"
	addq	$568, %rsp                      # imm = 0x238
	popq	%rbx
	popq	%r14
	popq	%r15
	popq	%rbp
	retq
.Lfunc_end52:
	.size	tteuyomal_indices, .Lfunc_end52-tteuyomal_indices
                                        # -- End function
	.section	.text.tteuyomal_judge,"ax",@progbits
	.globl	tteuyomal_judge                 # -- Begin function tteuyomal_judge
	.p2align	4
	.type	tteuyomal_judge,@function
tteuyomal_judge:                        # @tteuyomal_judge
# %bb.0:                                # %start
	pushq	%rbp
	pushq	%r15
	pushq	%r14
	pushq	%r13
	pushq	%r12
	pushq	%rbx
	subq	$104, %rsp
	movq	%rsi, %r14
	xorl	%ebx, %ebx
	testq	%rdi, %rdi
	sete	%bl
	shll	$12, %ebx
	addq	%rdi, %rbx
	xorps	%xmm0, %xmm0
	movaps	%xmm0, 80(%rsp)
	movaps	%xmm0, 64(%rsp)
	movaps	%xmm0, 48(%rsp)
	movaps	%xmm0, 32(%rsp)
	leaq	32(%rsp), %rdi
	movq	%rbx, %rsi
	movq	%r14, %rdx
	movl	$1, %ecx
	callq	"compose::fields"
	cmpb	$1, 32(%rsp)
	movq	40(%rsp), %r9
	movq	48(%rsp), %rsi
	jne	.LBB53_2
# %bb.1:                                # %arm.1.i.i.i.i
	movzbl	%r9b, %eax
	shlq	$8, %rsi
	orq	%rax, %rsi
	movq	%rsi, %rax
	jmp	.LBB53_239
.LBB53_2:                               # %arm.2.i.i.i.i
	movq	56(%rsp), %r8
	movq	64(%rsp), %rax
	movq	%rax, 24(%rsp)                  # 8-byte Spill
	movq	72(%rsp), %rax
	movq	%rax, 16(%rsp)                  # 8-byte Spill
	movq	80(%rsp), %rax
	movq	%rax, 8(%rsp)                   # 8-byte Spill
	movq	88(%rsp), %rax
	cmpq	%rax, %r14
	jae	.LBB53_4
# %bb.3:
	movl	$5, %r10d
	xorl	%r11d, %r11d
	xorl	%r15d, %r15d
	xorl	%r12d, %r12d
	xorl	%ebp, %ebp
	xorl	%ecx, %ecx
	xorl	%ebx, %ebx
	movl	$511, %eax                      # imm = 0x1FF
	cmpq	%r11, %r9
	jne	.LBB53_239
	jmp	.LBB53_231
.LBB53_4:                               # %join.3.i.i.i.i.i.i
	leaq	2(%rax), %rcx
	movl	$5, %r10d
	cmpq	%r14, %rcx
	jae	.LBB53_8
# %bb.5:                                # %"records::byte_at.exit.i.i.i.i.i.i.i"
	movzbl	2(%rbx,%rax), %ecx
	leaq	3(%rax), %rdx
	cmpq	%r14, %rdx
	jae	.LBB53_7
# %bb.6:                                # %then.1.i6.i.i.i.i.i.i.i
	movzbl	(%rbx,%rdx), %edx
	shll	$8, %edx
	movzwl	%cx, %ecx
	orl	%edx, %ecx
.LBB53_7:                               # %"records::le16_at.exit.i.i.i.i.i.i"
	xorl	%r10d, %r10d
	cmpw	$4, %cx
	sete	%r10b
	addq	$5, %r10
.LBB53_8:                               # %join.5.i.i.i.i.i.i
	leaq	4(%rax), %r11
	movq	%r14, %rcx
	subq	$8, %rcx
	jae	.LBB53_14
# %bb.9:                                # %start.split.us.i.i.i.i.i.i.i
	cmpq	$3, %r14
	jbe	.LBB53_18
# %bb.10:                               # %join.5.us.preheader.i.i.i.i.i.i.i
	leaq	-4(%r14), %r13
	cmpq	%r13, %r11
	jbe	.LBB53_22
# %bb.11:                               # %join.6.i.us.i.i.i.i.i.i.i
	cmpq	%r11, %r14
	jbe	.LBB53_31
# %bb.12:                               # %join.8.i.i.us.i.preheader.i.i.i.i.i.i
	leaq	7(%rax), %rcx
	cmpq	%r14, %rcx
	jae	.LBB53_150
# %bb.13:                               # %then.1.i.i.i.us.i.i.i.i.i.i.i
	movzbl	(%rbx,%rcx), %ecx
	shll	$8, %ecx
	jmp	.LBB53_151
.LBB53_14:                              # %join.3.i.i.i.i.i.i.i.i
	leaq	-4(%r14), %rdi
	cmpq	%rdi, %r11
	jbe	.LBB53_21
# %bb.15:                               # %join.6.i.i.i.i.i.i.i.i
	cmpq	%r11, %r14
	jbe	.LBB53_23
# %bb.16:                               # %join.8.i.i.i.preheader.i.i.i.i.i.i
	leaq	7(%rax), %rdx
	movq	%rdi, %r15
	cmpq	%r14, %rdx
	jae	.LBB53_32
# %bb.17:                               # %then.1.i.i.i.i.i.i.i.i.i.i
	movzbl	(%rbx,%rdx), %edx
	shll	$8, %edx
	jmp	.LBB53_33
.LBB53_18:                              # %join.5.us.us.preheader.i.i.i.i.i.i.i
	cmpq	%r11, %r14
	jbe	.LBB53_25
# %bb.19:                               # %"records::byte_at.exit.i.i.us.us.i.i.i.i.i.i.i"
	leaq	6(%rax), %rcx
	cmpq	%r14, %rcx
	jae	.LBB53_43
# %bb.20:                               # %then.1.i.i.i.us.us.i.1.i.i.i.i.i.i
	movzbl	2(%rbx), %ecx
	shll	$8, %ecx
	jmp	.LBB53_44
.LBB53_21:                              # %then.4.i.i.i.i.i.i.i.i
	movl	(%rbx,%r11), %r11d
	leaq	8(%rax), %r15
	cmpq	%rcx, %r15
	jbe	.LBB53_24
.LBB53_38:                              # %join.6.i.1.i.i.i.i.i.i.i
	cmpq	%r15, %r14
	jbe	.LBB53_41
# %bb.39:                               # %join.8.i.i.1.i.preheader.i.i.i.i.i.i
	leaq	15(%rax), %rdx
	cmpq	%r14, %rdx
	jae	.LBB53_49
# %bb.40:                               # %then.1.i.i.i.1.i.i.i.i.i.i.i
	movzbl	(%rbx,%rdx), %r12d
	shll	$8, %r12d
	jmp	.LBB53_50
.LBB53_22:                              # %then.4.i.us.i.i.i.i.i.i.i
	movl	(%rbx,%r11), %r11d
	jmp	.LBB53_156
.LBB53_23:
	xorl	%r11d, %r11d
	leaq	8(%rax), %r15
	cmpq	%rcx, %r15
	ja	.LBB53_38
	jmp	.LBB53_24
.LBB53_25:
	xorl	%r11d, %r11d
	leaq	8(%rax), %rcx
	cmpq	%rcx, %r14
	ja	.LBB53_47
.LBB53_26:
	xorl	%r15d, %r15d
	leaq	16(%rax), %rcx
	cmpq	%rcx, %r14
	ja	.LBB53_67
.LBB53_27:
	xorl	%r12d, %r12d
	leaq	24(%rax), %rcx
	cmpq	%rcx, %r14
	ja	.LBB53_92
.LBB53_28:
	xorl	%ebp, %ebp
	leaq	32(%rax), %rcx
	cmpq	%rcx, %r14
	ja	.LBB53_117
.LBB53_29:
	xorl	%ecx, %ecx
	leaq	40(%rax), %rdx
	cmpq	%rdx, %r14
	ja	.LBB53_141
	jmp	.LBB53_30
.LBB53_41:
	xorl	%r15d, %r15d
	leaq	16(%rax), %r12
	cmpq	%rcx, %r12
	ja	.LBB53_58
	jmp	.LBB53_42
.LBB53_31:
	xorl	%r11d, %r11d
	jmp	.LBB53_156
.LBB53_32:
	xorl	%edx, %edx
.LBB53_33:                              # %"records::byte_at.exit.i.i.i.i.i.i.i.i.i"
	leaq	6(%rax), %rdi
	cmpq	%r14, %rdi
	jae	.LBB53_35
# %bb.34:                               # %then.1.i.i.i.i.1.i.i.i.i.i.i
	movzbl	(%rbx,%rdi), %edi
	orq	%rdi, %rdx
.LBB53_35:                              # %"records::byte_at.exit.i.i.i.1.i.i.i.i.i.i"
	shll	$8, %edx
	leaq	5(%rax), %rdi
	cmpq	%r14, %rdi
	jae	.LBB53_37
# %bb.36:                               # %then.1.i.i.i.i.2.i.i.i.i.i.i
	movzbl	(%rbx,%rdi), %edi
	orq	%rdi, %rdx
.LBB53_37:                              # %"records::byte_at.exit.i.i.i.3.i.i.i.i.i.i"
	movq	%r15, %rdi
	shll	$8, %edx
	movzbl	(%rbx,%r11), %r11d
	orq	%rdx, %r11
	leaq	8(%rax), %r15
	cmpq	%rcx, %r15
	ja	.LBB53_38
.LBB53_24:                              # %then.1.i.1.i.i.i.i.i.i.i
	movq	(%rbx,%r15), %r15
	leaq	16(%rax), %r12
	cmpq	%rcx, %r12
	jbe	.LBB53_42
.LBB53_58:                              # %join.6.i.2.i.i.i.i.i.i.i
	cmpq	%r12, %r14
	jbe	.LBB53_61
# %bb.59:                               # %join.8.i.i.2.i.preheader.i.i.i.i.i.i
	leaq	23(%rax), %rdx
	cmpq	%r14, %rdx
	jae	.LBB53_74
# %bb.60:                               # %then.1.i.i.i.2.i.i.i.i.i.i.i
	movzbl	(%rbx,%rdx), %r13d
	shll	$8, %r13d
	jmp	.LBB53_75
.LBB53_61:
	xorl	%r12d, %r12d
	leaq	24(%rax), %rbp
	cmpq	%rcx, %rbp
	ja	.LBB53_83
	jmp	.LBB53_62
.LBB53_43:
	xorl	%ecx, %ecx
.LBB53_44:                              # %"records::byte_at.exit.i.i.us.us.i.1.i.i.i.i.i.i"
	leaq	5(%rax), %rdx
	cmpq	%r14, %rdx
	jae	.LBB53_46
# %bb.45:                               # %then.1.i.i.i.us.us.i.2.i.i.i.i.i.i
	movzbl	(%rbx,%rdx), %edx
	orq	%rdx, %rcx
.LBB53_46:                              # %"records::byte_at.exit.i.i.us.us.i.3.i.i.i.i.i.i"
	shll	$8, %ecx
	movzbl	(%rbx,%r11), %r11d
	orq	%rcx, %r11
	leaq	8(%rax), %rcx
	cmpq	%rcx, %r14
	jbe	.LBB53_26
.LBB53_47:                              # %"records::byte_at.exit.i.i.us.us.1.i.4.i.i.i.i.i.i"
	leaq	10(%rax), %rdx
	cmpq	%r14, %rdx
	jae	.LBB53_63
# %bb.48:                               # %then.1.i.i.i.us.us.1.i.5.i.i.i.i.i.i
	movzbl	2(%rbx), %edx
	shll	$8, %edx
	jmp	.LBB53_64
.LBB53_49:
	xorl	%r12d, %r12d
.LBB53_50:                              # %"records::byte_at.exit.i.i.1.i.i.i.i.i.i.i"
	leaq	14(%rax), %rdx
	cmpq	%r14, %rdx
	jae	.LBB53_51
# %bb.69:                               # %then.1.i.i.i.1.i.1.i.i.i.i.i.i
	movzbl	(%rbx,%rdx), %edx
	orq	%rdx, %r12
	shll	$8, %r12d
	leaq	13(%rax), %rdx
	cmpq	%r14, %rdx
	jb	.LBB53_70
.LBB53_52:                              # %"records::byte_at.exit.i.i.1.i.2.i.i.i.i.i.i"
	shll	$8, %r12d
	leaq	12(%rax), %rdx
	cmpq	%r14, %rdx
	jae	.LBB53_53
.LBB53_71:                              # %then.1.i.i.i.1.i.3.i.i.i.i.i.i
	movzbl	(%rbx,%rdx), %edx
	orq	%rdx, %r12
	shlq	$8, %r12
	leaq	11(%rax), %rdx
	cmpq	%r14, %rdx
	jb	.LBB53_72
.LBB53_54:                              # %"records::byte_at.exit.i.i.1.i.4.i.i.i.i.i.i"
	shlq	$8, %r12
	leaq	10(%rax), %rdx
	cmpq	%r14, %rdx
	jae	.LBB53_55
.LBB53_73:                              # %then.1.i.i.i.1.i.5.i.i.i.i.i.i
	movzbl	(%rbx,%rdx), %edx
	orq	%rdx, %r12
	shlq	$8, %r12
	leaq	9(%rax), %rdx
	cmpq	%r14, %rdx
	jb	.LBB53_56
	jmp	.LBB53_57
.LBB53_51:                              # %"records::byte_at.exit.i.i.1.i.1.i.i.i.i.i.i"
	shll	$8, %r12d
	leaq	13(%rax), %rdx
	cmpq	%r14, %rdx
	jae	.LBB53_52
.LBB53_70:                              # %then.1.i.i.i.1.i.2.i.i.i.i.i.i
	movzbl	(%rbx,%rdx), %edx
	orq	%rdx, %r12
	shll	$8, %r12d
	leaq	12(%rax), %rdx
	cmpq	%r14, %rdx
	jb	.LBB53_71
.LBB53_53:                              # %"records::byte_at.exit.i.i.1.i.3.i.i.i.i.i.i"
	shlq	$8, %r12
	leaq	11(%rax), %rdx
	cmpq	%r14, %rdx
	jae	.LBB53_54
.LBB53_72:                              # %then.1.i.i.i.1.i.4.i.i.i.i.i.i
	movzbl	(%rbx,%rdx), %edx
	orq	%rdx, %r12
	shlq	$8, %r12
	leaq	10(%rax), %rdx
	cmpq	%r14, %rdx
	jb	.LBB53_73
.LBB53_55:                              # %"records::byte_at.exit.i.i.1.i.5.i.i.i.i.i.i"
	shlq	$8, %r12
	leaq	9(%rax), %rdx
	cmpq	%r14, %rdx
	jae	.LBB53_57
.LBB53_56:                              # %then.1.i.i.i.1.i.6.i.i.i.i.i.i
	movzbl	(%rbx,%rdx), %edx
	orq	%rdx, %r12
.LBB53_57:                              # %"records::byte_at.exit.i.i.1.i.7.i.i.i.i.i.i"
	shlq	$8, %r12
	movzbl	(%rbx,%r15), %r15d
	orq	%r12, %r15
	leaq	16(%rax), %r12
	cmpq	%rcx, %r12
	ja	.LBB53_58
.LBB53_42:                              # %then.1.i.2.i.i.i.i.i.i.i
	movq	(%rbx,%r12), %r12
	leaq	24(%rax), %rbp
	cmpq	%rcx, %rbp
	jbe	.LBB53_62
.LBB53_83:                              # %join.6.i.3.i.i.i.i.i.i.i
	cmpq	%rbp, %r14
	jbe	.LBB53_86
# %bb.84:                               # %join.8.i.i.3.i.preheader.i.i.i.i.i.i
	leaq	31(%rax), %rdx
	cmpq	%r14, %rdx
	jae	.LBB53_99
# %bb.85:                               # %then.1.i.i.i.3.i.i.i.i.i.i.i
	movzbl	(%rbx,%rdx), %r13d
	shll	$8, %r13d
	jmp	.LBB53_100
.LBB53_86:
	xorl	%ebp, %ebp
	leaq	32(%rax), %r13
	cmpq	%rcx, %r13
	ja	.LBB53_108
	jmp	.LBB53_87
.LBB53_74:
	xorl	%r13d, %r13d
.LBB53_75:                              # %"records::byte_at.exit.i.i.2.i.i.i.i.i.i.i"
	leaq	22(%rax), %rdx
	cmpq	%r14, %rdx
	jae	.LBB53_76
# %bb.94:                               # %then.1.i.i.i.2.i.1.i.i.i.i.i.i
	movzbl	(%rbx,%rdx), %edx
	orq	%rdx, %r13
	shll	$8, %r13d
	leaq	21(%rax), %rdx
	cmpq	%r14, %rdx
	jb	.LBB53_95
.LBB53_77:                              # %"records::byte_at.exit.i.i.2.i.2.i.i.i.i.i.i"
	shll	$8, %r13d
	leaq	20(%rax), %rdx
	cmpq	%r14, %rdx
	jae	.LBB53_78
.LBB53_96:                              # %then.1.i.i.i.2.i.3.i.i.i.i.i.i
	movzbl	(%rbx,%rdx), %edx
	orq	%rdx, %r13
	shlq	$8, %r13
	leaq	19(%rax), %rdx
	cmpq	%r14, %rdx
	jb	.LBB53_97
.LBB53_79:                              # %"records::byte_at.exit.i.i.2.i.4.i.i.i.i.i.i"
	shlq	$8, %r13
	leaq	18(%rax), %rdx
	cmpq	%r14, %rdx
	jae	.LBB53_80
.LBB53_98:                              # %then.1.i.i.i.2.i.5.i.i.i.i.i.i
	movzbl	(%rbx,%rdx), %edx
	orq	%rdx, %r13
	shlq	$8, %r13
	leaq	17(%rax), %rdx
	cmpq	%r14, %rdx
	jb	.LBB53_81
	jmp	.LBB53_82
.LBB53_76:                              # %"records::byte_at.exit.i.i.2.i.1.i.i.i.i.i.i"
	shll	$8, %r13d
	leaq	21(%rax), %rdx
	cmpq	%r14, %rdx
	jae	.LBB53_77
.LBB53_95:                              # %then.1.i.i.i.2.i.2.i.i.i.i.i.i
	movzbl	(%rbx,%rdx), %edx
	orq	%rdx, %r13
	shll	$8, %r13d
	leaq	20(%rax), %rdx
	cmpq	%r14, %rdx
	jb	.LBB53_96
.LBB53_78:                              # %"records::byte_at.exit.i.i.2.i.3.i.i.i.i.i.i"
	shlq	$8, %r13
	leaq	19(%rax), %rdx
	cmpq	%r14, %rdx
	jae	.LBB53_79
.LBB53_97:                              # %then.1.i.i.i.2.i.4.i.i.i.i.i.i
	movzbl	(%rbx,%rdx), %edx
	orq	%rdx, %r13
	shlq	$8, %r13
	leaq	18(%rax), %rdx
	cmpq	%r14, %rdx
	jb	.LBB53_98
.LBB53_80:                              # %"records::byte_at.exit.i.i.2.i.5.i.i.i.i.i.i"
	shlq	$8, %r13
	leaq	17(%rax), %rdx
	cmpq	%r14, %rdx
	jae	.LBB53_82
.LBB53_81:                              # %then.1.i.i.i.2.i.6.i.i.i.i.i.i
	movzbl	(%rbx,%rdx), %edx
	orq	%rdx, %r13
.LBB53_82:                              # %"records::byte_at.exit.i.i.2.i.7.i.i.i.i.i.i"
	shlq	$8, %r13
	movzbl	(%rbx,%r12), %r12d
	orq	%r13, %r12
	leaq	24(%rax), %rbp
	cmpq	%rcx, %rbp
	ja	.LBB53_83
.LBB53_62:                              # %then.1.i.3.i.i.i.i.i.i.i
	movq	(%rbx,%rbp), %rbp
	leaq	32(%rax), %r13
	cmpq	%rcx, %r13
	jbe	.LBB53_87
.LBB53_108:                             # %join.6.i.4.i.i.i.i.i.i.i
	cmpq	%r13, %r14
	jbe	.LBB53_111
# %bb.109:                              # %join.8.i.i.4.i.preheader.i.i.i.i.i.i
	leaq	39(%rax), %rcx
	cmpq	%r14, %rcx
	jae	.LBB53_124
# %bb.110:                              # %then.1.i.i.i.4.i.i.i.i.i.i.i
	movzbl	(%rbx,%rcx), %edx
	shll	$8, %edx
	jmp	.LBB53_125
.LBB53_111:
	xorl	%ecx, %ecx
	leaq	40(%rax), %rdx
	cmpq	%rdi, %rdx
	ja	.LBB53_133
	jmp	.LBB53_163
.LBB53_63:
	xorl	%edx, %edx
.LBB53_64:                              # %"records::byte_at.exit.i.i.us.us.1.i.5.i.i.i.i.i.i"
	leaq	9(%rax), %r15
	cmpq	%r14, %r15
	jae	.LBB53_66
# %bb.65:                               # %then.1.i.i.i.us.us.1.i.6.i.i.i.i.i.i
	movzbl	(%rbx,%r15), %edi
	orq	%rdi, %rdx
.LBB53_66:                              # %"records::byte_at.exit.i.i.us.us.1.i.7.i.i.i.i.i.i"
	shll	$8, %edx
	movzbl	(%rbx,%rcx), %r15d
	orq	%rdx, %r15
	leaq	16(%rax), %rcx
	cmpq	%rcx, %r14
	jbe	.LBB53_27
.LBB53_67:                              # %"records::byte_at.exit.i.i.us.us.2.i.4.i.i.i.i.i.i"
	leaq	18(%rax), %rdx
	cmpq	%r14, %rdx
	jae	.LBB53_88
# %bb.68:                               # %then.1.i.i.i.us.us.2.i.5.i.i.i.i.i.i
	movzbl	2(%rbx), %edx
	shll	$8, %edx
	jmp	.LBB53_89
.LBB53_99:
	xorl	%r13d, %r13d
.LBB53_100:                             # %"records::byte_at.exit.i.i.3.i.i.i.i.i.i.i"
	leaq	30(%rax), %rdx
	cmpq	%r14, %rdx
	jae	.LBB53_101
# %bb.119:                              # %then.1.i.i.i.3.i.1.i.i.i.i.i.i
	movzbl	(%rbx,%rdx), %edx
	orq	%rdx, %r13
	shll	$8, %r13d
	leaq	29(%rax), %rdx
	cmpq	%r14, %rdx
	jb	.LBB53_120
.LBB53_102:                             # %"records::byte_at.exit.i.i.3.i.2.i.i.i.i.i.i"
	shll	$8, %r13d
	leaq	28(%rax), %rdx
	cmpq	%r14, %rdx
	jae	.LBB53_103
.LBB53_121:                             # %then.1.i.i.i.3.i.3.i.i.i.i.i.i
	movzbl	(%rbx,%rdx), %edx
	orq	%rdx, %r13
	shlq	$8, %r13
	leaq	27(%rax), %rdx
	cmpq	%r14, %rdx
	jb	.LBB53_122
.LBB53_104:                             # %"records::byte_at.exit.i.i.3.i.4.i.i.i.i.i.i"
	shlq	$8, %r13
	leaq	26(%rax), %rdx
	cmpq	%r14, %rdx
	jae	.LBB53_105
.LBB53_123:                             # %then.1.i.i.i.3.i.5.i.i.i.i.i.i
	movzbl	(%rbx,%rdx), %edx
	orq	%rdx, %r13
	shlq	$8, %r13
	leaq	25(%rax), %rdx
	cmpq	%r14, %rdx
	jb	.LBB53_106
	jmp	.LBB53_107
.LBB53_101:                             # %"records::byte_at.exit.i.i.3.i.1.i.i.i.i.i.i"
	shll	$8, %r13d
	leaq	29(%rax), %rdx
	cmpq	%r14, %rdx
	jae	.LBB53_102
.LBB53_120:                             # %then.1.i.i.i.3.i.2.i.i.i.i.i.i
	movzbl	(%rbx,%rdx), %edx
	orq	%rdx, %r13
	shll	$8, %r13d
	leaq	28(%rax), %rdx
	cmpq	%r14, %rdx
	jb	.LBB53_121
.LBB53_103:                             # %"records::byte_at.exit.i.i.3.i.3.i.i.i.i.i.i"
	shlq	$8, %r13
	leaq	27(%rax), %rdx
	cmpq	%r14, %rdx
	jae	.LBB53_104
.LBB53_122:                             # %then.1.i.i.i.3.i.4.i.i.i.i.i.i
	movzbl	(%rbx,%rdx), %edx
	orq	%rdx, %r13
	shlq	$8, %r13
	leaq	26(%rax), %rdx
	cmpq	%r14, %rdx
	jb	.LBB53_123
.LBB53_105:                             # %"records::byte_at.exit.i.i.3.i.5.i.i.i.i.i.i"
	shlq	$8, %r13
	leaq	25(%rax), %rdx
	cmpq	%r14, %rdx
	jae	.LBB53_107
.LBB53_106:                             # %then.1.i.i.i.3.i.6.i.i.i.i.i.i
	movzbl	(%rbx,%rdx), %edx
	orq	%rdx, %r13
.LBB53_107:                             # %"records::byte_at.exit.i.i.3.i.7.i.i.i.i.i.i"
	shlq	$8, %r13
	movzbl	(%rbx,%rbp), %ebp
	orq	%r13, %rbp
	leaq	32(%rax), %r13
	cmpq	%rcx, %r13
	ja	.LBB53_108
.LBB53_87:                              # %then.1.i.4.i.i.i.i.i.i.i
	movq	(%rbx,%r13), %rcx
	leaq	40(%rax), %rdx
	cmpq	%rdi, %rdx
	ja	.LBB53_133
	jmp	.LBB53_163
.LBB53_124:
	xorl	%edx, %edx
.LBB53_125:                             # %"records::byte_at.exit.i.i.4.i.i.i.i.i.i.i"
	leaq	38(%rax), %rcx
	cmpq	%r14, %rcx
	jae	.LBB53_126
# %bb.143:                              # %then.1.i.i.i.4.i.1.i.i.i.i.i.i
	movzbl	(%rbx,%rcx), %ecx
	orq	%rcx, %rdx
	shll	$8, %edx
	leaq	37(%rax), %rcx
	cmpq	%r14, %rcx
	jb	.LBB53_144
.LBB53_127:                             # %"records::byte_at.exit.i.i.4.i.2.i.i.i.i.i.i"
	shll	$8, %edx
	leaq	36(%rax), %rcx
	cmpq	%r14, %rcx
	jae	.LBB53_128
.LBB53_145:                             # %then.1.i.i.i.4.i.3.i.i.i.i.i.i
	movzbl	(%rbx,%rcx), %ecx
	orq	%rcx, %rdx
	shlq	$8, %rdx
	leaq	35(%rax), %rcx
	cmpq	%r14, %rcx
	jb	.LBB53_146
.LBB53_129:                             # %"records::byte_at.exit.i.i.4.i.4.i.i.i.i.i.i"
	shlq	$8, %rdx
	leaq	34(%rax), %rcx
	cmpq	%r14, %rcx
	jae	.LBB53_130
.LBB53_147:                             # %then.1.i.i.i.4.i.5.i.i.i.i.i.i
	movzbl	(%rbx,%rcx), %ecx
	orq	%rcx, %rdx
	shlq	$8, %rdx
	leaq	33(%rax), %rcx
	cmpq	%r14, %rcx
	jb	.LBB53_131
	jmp	.LBB53_132
.LBB53_126:                             # %"records::byte_at.exit.i.i.4.i.1.i.i.i.i.i.i"
	shll	$8, %edx
	leaq	37(%rax), %rcx
	cmpq	%r14, %rcx
	jae	.LBB53_127
.LBB53_144:                             # %then.1.i.i.i.4.i.2.i.i.i.i.i.i
	movzbl	(%rbx,%rcx), %ecx
	orq	%rcx, %rdx
	shll	$8, %edx
	leaq	36(%rax), %rcx
	cmpq	%r14, %rcx
	jb	.LBB53_145
.LBB53_128:                             # %"records::byte_at.exit.i.i.4.i.3.i.i.i.i.i.i"
	shlq	$8, %rdx
	leaq	35(%rax), %rcx
	cmpq	%r14, %rcx
	jae	.LBB53_129
.LBB53_146:                             # %then.1.i.i.i.4.i.4.i.i.i.i.i.i
	movzbl	(%rbx,%rcx), %ecx
	orq	%rcx, %rdx
	shlq	$8, %rdx
	leaq	34(%rax), %rcx
	cmpq	%r14, %rcx
	jb	.LBB53_147
.LBB53_130:                             # %"records::byte_at.exit.i.i.4.i.5.i.i.i.i.i.i"
	shlq	$8, %rdx
	leaq	33(%rax), %rcx
	cmpq	%r14, %rcx
	jae	.LBB53_132
.LBB53_131:                             # %then.1.i.i.i.4.i.6.i.i.i.i.i.i
	movzbl	(%rbx,%rcx), %ecx
	orq	%rcx, %rdx
.LBB53_132:                             # %"records::byte_at.exit.i.i.4.i.7.i.i.i.i.i.i"
	shlq	$8, %rdx
	movzbl	(%rbx,%r13), %ecx
	orq	%rdx, %rcx
	leaq	40(%rax), %rdx
	cmpq	%rdi, %rdx
	jbe	.LBB53_163
.LBB53_133:                             # %join.6.i.5.i.i.i.i.i.i.i
	cmpq	%rdx, %r14
	jbe	.LBB53_30
# %bb.134:                              # %join.8.i.i.5.i.preheader.i.i.i.i.i.i
	leaq	43(%rax), %rdi
	cmpq	%r14, %rdi
	jae	.LBB53_223
# %bb.135:                              # %then.1.i.i.i.5.i.i.i.i.i.i.i
	movzbl	(%rbx,%rdi), %r13d
	jmp	.LBB53_217
.LBB53_88:
	xorl	%edx, %edx
.LBB53_89:                              # %"records::byte_at.exit.i.i.us.us.2.i.5.i.i.i.i.i.i"
	leaq	17(%rax), %r12
	cmpq	%r14, %r12
	jae	.LBB53_91
# %bb.90:                               # %then.1.i.i.i.us.us.2.i.6.i.i.i.i.i.i
	movzbl	(%rbx,%r12), %edi
	orq	%rdi, %rdx
.LBB53_91:                              # %"records::byte_at.exit.i.i.us.us.2.i.7.i.i.i.i.i.i"
	shll	$8, %edx
	movzbl	(%rbx,%rcx), %r12d
	orq	%rdx, %r12
	leaq	24(%rax), %rcx
	cmpq	%rcx, %r14
	jbe	.LBB53_28
.LBB53_92:                              # %"records::byte_at.exit.i.i.us.us.3.i.4.i.i.i.i.i.i"
	leaq	26(%rax), %rdx
	cmpq	%r14, %rdx
	jae	.LBB53_113
# %bb.93:                               # %then.1.i.i.i.us.us.3.i.5.i.i.i.i.i.i
	movzbl	2(%rbx), %edx
	shll	$8, %edx
	jmp	.LBB53_114
.LBB53_113:
	xorl	%edx, %edx
.LBB53_114:                             # %"records::byte_at.exit.i.i.us.us.3.i.5.i.i.i.i.i.i"
	leaq	25(%rax), %r13
	cmpq	%r14, %r13
	jae	.LBB53_116
# %bb.115:                              # %then.1.i.i.i.us.us.3.i.6.i.i.i.i.i.i
	movzbl	(%rbx,%r13), %edi
	orq	%rdi, %rdx
.LBB53_116:                             # %"records::byte_at.exit.i.i.us.us.3.i.7.i.i.i.i.i.i"
	shll	$8, %edx
	movzbl	(%rbx,%rcx), %ebp
	orq	%rdx, %rbp
	leaq	32(%rax), %rcx
	cmpq	%rcx, %r14
	jbe	.LBB53_29
.LBB53_117:                             # %"records::byte_at.exit.i.i.us.us.4.i.4.i.i.i.i.i.i"
	leaq	34(%rax), %rdx
	cmpq	%r14, %rdx
	jae	.LBB53_137
# %bb.118:                              # %then.1.i.i.i.us.us.4.i.5.i.i.i.i.i.i
	movzbl	2(%rbx), %edx
	shll	$8, %edx
	jmp	.LBB53_138
.LBB53_137:
	xorl	%edx, %edx
.LBB53_138:                             # %"records::byte_at.exit.i.i.us.us.4.i.5.i.i.i.i.i.i"
	leaq	33(%rax), %r13
	cmpq	%r14, %r13
	jae	.LBB53_140
# %bb.139:                              # %then.1.i.i.i.us.us.4.i.6.i.i.i.i.i.i
	movzbl	(%rbx,%r13), %edi
	orq	%rdi, %rdx
.LBB53_140:                             # %"records::byte_at.exit.i.i.us.us.4.i.7.i.i.i.i.i.i"
	shll	$8, %edx
	movzbl	(%rbx,%rcx), %ecx
	orq	%rdx, %rcx
	leaq	40(%rax), %rdx
	cmpq	%rdx, %r14
	jbe	.LBB53_30
.LBB53_141:                             # %"records::byte_at.exit.i.i.us.us.5.i.i.i.i.i.i.i"
	leaq	42(%rax), %rdi
	cmpq	%r14, %rdi
	jae	.LBB53_149
# %bb.142:                              # %then.1.i.i.i.us.us.5.i.1.i.i.i.i.i.i
	movzbl	2(%rbx), %r13d
	jmp	.LBB53_226
.LBB53_149:
	xorl	%r13d, %r13d
	jmp	.LBB53_227
.LBB53_150:
	xorl	%ecx, %ecx
.LBB53_151:                             # %"records::byte_at.exit.i.i.us.i.i.i.i.i.i.i"
	leaq	6(%rax), %rdx
	cmpq	%r14, %rdx
	jae	.LBB53_153
# %bb.152:                              # %then.1.i.i.i.us.i.1.i.i.i.i.i.i
	movzbl	(%rbx,%rdx), %edx
	orq	%rdx, %rcx
.LBB53_153:                             # %"records::byte_at.exit.i.i.us.i.1.i.i.i.i.i.i"
	shll	$8, %ecx
	leaq	5(%rax), %rdx
	cmpq	%r14, %rdx
	jae	.LBB53_155
# %bb.154:                              # %then.1.i.i.i.us.i.2.i.i.i.i.i.i
	movzbl	(%rbx,%rdx), %edx
	orq	%rdx, %rcx
.LBB53_155:                             # %"records::byte_at.exit.i.i.us.i.3.i.i.i.i.i.i"
	shll	$8, %ecx
	movzbl	(%rbx,%r11), %r11d
	orq	%rcx, %r11
.LBB53_156:                             # %join.6.i.us.1.i.i.i.i.i.i.i
	leaq	8(%rax), %rcx
	cmpq	%rcx, %r14
	jbe	.LBB53_159
# %bb.157:                              # %"records::byte_at.exit.i.i.us.1.i.i.i.i.i.i.i"
	leaq	14(%rax), %rdx
	cmpq	%r14, %rdx
	jae	.LBB53_164
# %bb.158:                              # %then.1.i.i.i.us.1.i.1.i.i.i.i.i.i
	movzbl	6(%rbx), %edx
	shll	$8, %edx
	jmp	.LBB53_165
.LBB53_159:
	xorl	%r15d, %r15d
	leaq	16(%rax), %rcx
	cmpq	%rcx, %r14
	ja	.LBB53_172
.LBB53_160:
	xorl	%r12d, %r12d
	leaq	24(%rax), %rcx
	cmpq	%rcx, %r14
	ja	.LBB53_186
.LBB53_161:
	xorl	%ebp, %ebp
	leaq	32(%rax), %rcx
	cmpq	%rcx, %r14
	ja	.LBB53_200
.LBB53_162:
	xorl	%ecx, %ecx
	leaq	40(%rax), %rdx
	cmpq	%r13, %rdx
	ja	.LBB53_214
.LBB53_163:                             # %then.4.i.us.5.i.i.i.i.i.i.i
	movl	(%rbx,%rdx), %ebx
	movl	$511, %eax                      # imm = 0x1FF
	cmpq	%r11, %r9
	jne	.LBB53_239
	jmp	.LBB53_231
.LBB53_164:
	xorl	%edx, %edx
.LBB53_165:                             # %"records::byte_at.exit.i.i.us.1.i.1.i.i.i.i.i.i"
	leaq	13(%rax), %r15
	cmpq	%r14, %r15
	jae	.LBB53_166
# %bb.174:                              # %then.1.i.i.i.us.1.i.2.i.i.i.i.i.i
	movzbl	(%rbx,%r15), %edi
	orq	%rdi, %rdx
	shll	$8, %edx
	leaq	12(%rax), %r15
	cmpq	%r14, %r15
	jb	.LBB53_175
.LBB53_167:                             # %"records::byte_at.exit.i.i.us.1.i.3.i.i.i.i.i.i"
	shll	$8, %edx
	leaq	11(%rax), %r15
	cmpq	%r14, %r15
	jae	.LBB53_168
.LBB53_176:                             # %then.1.i.i.i.us.1.i.4.i.i.i.i.i.i
	movzbl	(%rbx,%r15), %edi
	orq	%rdi, %rdx
	shlq	$8, %rdx
	leaq	10(%rax), %r15
	cmpq	%r14, %r15
	jb	.LBB53_177
.LBB53_169:                             # %"records::byte_at.exit.i.i.us.1.i.5.i.i.i.i.i.i"
	shlq	$8, %rdx
	leaq	9(%rax), %r15
	cmpq	%r14, %r15
	jae	.LBB53_171
.LBB53_170:                             # %then.1.i.i.i.us.1.i.6.i.i.i.i.i.i
	movzbl	(%rbx,%r15), %edi
	orq	%rdi, %rdx
.LBB53_171:                             # %"records::byte_at.exit.i.i.us.1.i.7.i.i.i.i.i.i"
	shlq	$8, %rdx
	movzbl	(%rbx,%rcx), %r15d
	orq	%rdx, %r15
	leaq	16(%rax), %rcx
	cmpq	%rcx, %r14
	jbe	.LBB53_160
.LBB53_172:                             # %"records::byte_at.exit.i.i.us.2.i.i.i.i.i.i.i"
	leaq	22(%rax), %rdx
	cmpq	%r14, %rdx
	jae	.LBB53_178
# %bb.173:                              # %then.1.i.i.i.us.2.i.1.i.i.i.i.i.i
	movzbl	6(%rbx), %edx
	shll	$8, %edx
	jmp	.LBB53_179
.LBB53_166:                             # %"records::byte_at.exit.i.i.us.1.i.2.i.i.i.i.i.i"
	shll	$8, %edx
	leaq	12(%rax), %r15
	cmpq	%r14, %r15
	jae	.LBB53_167
.LBB53_175:                             # %then.1.i.i.i.us.1.i.3.i.i.i.i.i.i
	movzbl	(%rbx,%r15), %edi
	orq	%rdi, %rdx
	shll	$8, %edx
	leaq	11(%rax), %r15
	cmpq	%r14, %r15
	jb	.LBB53_176
.LBB53_168:                             # %"records::byte_at.exit.i.i.us.1.i.4.i.i.i.i.i.i"
	shlq	$8, %rdx
	leaq	10(%rax), %r15
	cmpq	%r14, %r15
	jae	.LBB53_169
.LBB53_177:                             # %then.1.i.i.i.us.1.i.5.i.i.i.i.i.i
	movzbl	(%rbx,%r15), %edi
	orq	%rdi, %rdx
	shlq	$8, %rdx
	leaq	9(%rax), %r15
	cmpq	%r14, %r15
	jb	.LBB53_170
	jmp	.LBB53_171
.LBB53_178:
	xorl	%edx, %edx
.LBB53_179:                             # %"records::byte_at.exit.i.i.us.2.i.1.i.i.i.i.i.i"
	leaq	21(%rax), %r12
	cmpq	%r14, %r12
	jae	.LBB53_180
# %bb.188:                              # %then.1.i.i.i.us.2.i.2.i.i.i.i.i.i
	movzbl	(%rbx,%r12), %edi
	orq	%rdi, %rdx
	shll	$8, %edx
	leaq	20(%rax), %r12
	cmpq	%r14, %r12
	jb	.LBB53_189
.LBB53_181:                             # %"records::byte_at.exit.i.i.us.2.i.3.i.i.i.i.i.i"
	shll	$8, %edx
	leaq	19(%rax), %r12
	cmpq	%r14, %r12
	jae	.LBB53_182
.LBB53_190:                             # %then.1.i.i.i.us.2.i.4.i.i.i.i.i.i
	movzbl	(%rbx,%r12), %edi
	orq	%rdi, %rdx
	shlq	$8, %rdx
	leaq	18(%rax), %r12
	cmpq	%r14, %r12
	jb	.LBB53_191
.LBB53_183:                             # %"records::byte_at.exit.i.i.us.2.i.5.i.i.i.i.i.i"
	shlq	$8, %rdx
	leaq	17(%rax), %r12
	cmpq	%r14, %r12
	jae	.LBB53_185
.LBB53_184:                             # %then.1.i.i.i.us.2.i.6.i.i.i.i.i.i
	movzbl	(%rbx,%r12), %edi
	orq	%rdi, %rdx
.LBB53_185:                             # %"records::byte_at.exit.i.i.us.2.i.7.i.i.i.i.i.i"
	shlq	$8, %rdx
	movzbl	(%rbx,%rcx), %r12d
	orq	%rdx, %r12
	leaq	24(%rax), %rcx
	cmpq	%rcx, %r14
	jbe	.LBB53_161
.LBB53_186:                             # %"records::byte_at.exit.i.i.us.3.i.i.i.i.i.i.i"
	leaq	30(%rax), %rdx
	cmpq	%r14, %rdx
	jae	.LBB53_192
# %bb.187:                              # %then.1.i.i.i.us.3.i.1.i.i.i.i.i.i
	movzbl	6(%rbx), %edx
	shll	$8, %edx
	jmp	.LBB53_193
.LBB53_180:                             # %"records::byte_at.exit.i.i.us.2.i.2.i.i.i.i.i.i"
	shll	$8, %edx
	leaq	20(%rax), %r12
	cmpq	%r14, %r12
	jae	.LBB53_181
.LBB53_189:                             # %then.1.i.i.i.us.2.i.3.i.i.i.i.i.i
	movzbl	(%rbx,%r12), %edi
	orq	%rdi, %rdx
	shll	$8, %edx
	leaq	19(%rax), %r12
	cmpq	%r14, %r12
	jb	.LBB53_190
.LBB53_182:                             # %"records::byte_at.exit.i.i.us.2.i.4.i.i.i.i.i.i"
	shlq	$8, %rdx
	leaq	18(%rax), %r12
	cmpq	%r14, %r12
	jae	.LBB53_183
.LBB53_191:                             # %then.1.i.i.i.us.2.i.5.i.i.i.i.i.i
	movzbl	(%rbx,%r12), %edi
	orq	%rdi, %rdx
	shlq	$8, %rdx
	leaq	17(%rax), %r12
	cmpq	%r14, %r12
	jb	.LBB53_184
	jmp	.LBB53_185
.LBB53_192:
	xorl	%edx, %edx
.LBB53_193:                             # %"records::byte_at.exit.i.i.us.3.i.1.i.i.i.i.i.i"
	leaq	29(%rax), %rbp
	cmpq	%r14, %rbp
	jae	.LBB53_194
# %bb.202:                              # %then.1.i.i.i.us.3.i.2.i.i.i.i.i.i
	movzbl	(%rbx,%rbp), %edi
	orq	%rdi, %rdx
	shll	$8, %edx
	leaq	28(%rax), %rbp
	cmpq	%r14, %rbp
	jb	.LBB53_203
.LBB53_195:                             # %"records::byte_at.exit.i.i.us.3.i.3.i.i.i.i.i.i"
	shll	$8, %edx
	leaq	27(%rax), %rbp
	cmpq	%r14, %rbp
	jae	.LBB53_196
.LBB53_204:                             # %then.1.i.i.i.us.3.i.4.i.i.i.i.i.i
	movzbl	(%rbx,%rbp), %edi
	orq	%rdi, %rdx
	shlq	$8, %rdx
	leaq	26(%rax), %rbp
	cmpq	%r14, %rbp
	jb	.LBB53_205
.LBB53_197:                             # %"records::byte_at.exit.i.i.us.3.i.5.i.i.i.i.i.i"
	shlq	$8, %rdx
	leaq	25(%rax), %rbp
	cmpq	%r14, %rbp
	jae	.LBB53_199
.LBB53_198:                             # %then.1.i.i.i.us.3.i.6.i.i.i.i.i.i
	movzbl	(%rbx,%rbp), %edi
	orq	%rdi, %rdx
.LBB53_199:                             # %"records::byte_at.exit.i.i.us.3.i.7.i.i.i.i.i.i"
	shlq	$8, %rdx
	movzbl	(%rbx,%rcx), %ebp
	orq	%rdx, %rbp
	leaq	32(%rax), %rcx
	cmpq	%rcx, %r14
	jbe	.LBB53_162
.LBB53_200:                             # %"records::byte_at.exit.i.i.us.4.i.i.i.i.i.i.i"
	movq	%r8, (%rsp)                     # 8-byte Spill
	leaq	38(%rax), %rdx
	movq	%r13, %r8
	cmpq	%r14, %rdx
	jae	.LBB53_206
# %bb.201:                              # %then.1.i.i.i.us.4.i.1.i.i.i.i.i.i
	movzbl	6(%rbx), %edx
	shll	$8, %edx
	jmp	.LBB53_207
.LBB53_194:                             # %"records::byte_at.exit.i.i.us.3.i.2.i.i.i.i.i.i"
	shll	$8, %edx
	leaq	28(%rax), %rbp
	cmpq	%r14, %rbp
	jae	.LBB53_195
.LBB53_203:                             # %then.1.i.i.i.us.3.i.3.i.i.i.i.i.i
	movzbl	(%rbx,%rbp), %edi
	orq	%rdi, %rdx
	shll	$8, %edx
	leaq	27(%rax), %rbp
	cmpq	%r14, %rbp
	jb	.LBB53_204
.LBB53_196:                             # %"records::byte_at.exit.i.i.us.3.i.4.i.i.i.i.i.i"
	shlq	$8, %rdx
	leaq	26(%rax), %rbp
	cmpq	%r14, %rbp
	jae	.LBB53_197
.LBB53_205:                             # %then.1.i.i.i.us.3.i.5.i.i.i.i.i.i
	movzbl	(%rbx,%rbp), %edi
	orq	%rdi, %rdx
	shlq	$8, %rdx
	leaq	25(%rax), %rbp
	cmpq	%r14, %rbp
	jb	.LBB53_198
	jmp	.LBB53_199
.LBB53_206:
	xorl	%edx, %edx
.LBB53_207:                             # %"records::byte_at.exit.i.i.us.4.i.1.i.i.i.i.i.i"
	leaq	37(%rax), %r13
	cmpq	%r14, %r13
	jae	.LBB53_208
# %bb.218:                              # %then.1.i.i.i.us.4.i.2.i.i.i.i.i.i
	movzbl	(%rbx,%r13), %edi
	orq	%rdi, %rdx
	shll	$8, %edx
	leaq	36(%rax), %r13
	cmpq	%r14, %r13
	jb	.LBB53_219
.LBB53_209:                             # %"records::byte_at.exit.i.i.us.4.i.3.i.i.i.i.i.i"
	shll	$8, %edx
	leaq	35(%rax), %r13
	cmpq	%r14, %r13
	jae	.LBB53_210
.LBB53_220:                             # %then.1.i.i.i.us.4.i.4.i.i.i.i.i.i
	movzbl	(%rbx,%r13), %edi
	orq	%rdi, %rdx
	shlq	$8, %rdx
	leaq	34(%rax), %r13
	cmpq	%r14, %r13
	jb	.LBB53_221
.LBB53_211:                             # %"records::byte_at.exit.i.i.us.4.i.5.i.i.i.i.i.i"
	shlq	$8, %rdx
	leaq	33(%rax), %r13
	cmpq	%r14, %r13
	jae	.LBB53_213
.LBB53_212:                             # %then.1.i.i.i.us.4.i.6.i.i.i.i.i.i
	movzbl	(%rbx,%r13), %edi
	orq	%rdi, %rdx
.LBB53_213:                             # %"records::byte_at.exit.i.i.us.4.i.7.i.i.i.i.i.i"
	movq	%r8, %r13
	shlq	$8, %rdx
	movzbl	(%rbx,%rcx), %ecx
	orq	%rdx, %rcx
	movq	(%rsp), %r8                     # 8-byte Reload
	leaq	40(%rax), %rdx
	cmpq	%r13, %rdx
	jbe	.LBB53_163
.LBB53_214:                             # %join.6.i.us.5.i.i.i.i.i.i.i
	cmpq	%rdx, %r14
	jbe	.LBB53_30
# %bb.215:                              # %join.8.i.i.us.5.i.preheader.i.i.i.i.i.i
	leaq	43(%rax), %r13
	cmpq	%r14, %r13
	jae	.LBB53_223
# %bb.216:                              # %then.1.i.i.i.us.5.i.i.i.i.i.i.i
	movzbl	(%rbx,%r13), %r13d
.LBB53_217:                             # %"records::byte_at.exit.i.i.5.i.i.i.i.i.i.i"
	shll	$8, %r13d
	jmp	.LBB53_224
.LBB53_30:
	xorl	%ebx, %ebx
	movl	$511, %eax                      # imm = 0x1FF
	cmpq	%r11, %r9
	jne	.LBB53_239
	jmp	.LBB53_231
.LBB53_208:                             # %"records::byte_at.exit.i.i.us.4.i.2.i.i.i.i.i.i"
	shll	$8, %edx
	leaq	36(%rax), %r13
	cmpq	%r14, %r13
	jae	.LBB53_209
.LBB53_219:                             # %then.1.i.i.i.us.4.i.3.i.i.i.i.i.i
	movzbl	(%rbx,%r13), %edi
	orq	%rdi, %rdx
	shll	$8, %edx
	leaq	35(%rax), %r13
	cmpq	%r14, %r13
	jb	.LBB53_220
.LBB53_210:                             # %"records::byte_at.exit.i.i.us.4.i.4.i.i.i.i.i.i"
	shlq	$8, %rdx
	leaq	34(%rax), %r13
	cmpq	%r14, %r13
	jae	.LBB53_211
.LBB53_221:                             # %then.1.i.i.i.us.4.i.5.i.i.i.i.i.i
	movzbl	(%rbx,%r13), %edi
	orq	%rdi, %rdx
	shlq	$8, %rdx
	leaq	33(%rax), %r13
	cmpq	%r14, %r13
	jb	.LBB53_212
	jmp	.LBB53_213
.LBB53_223:
	xorl	%r13d, %r13d
.LBB53_224:                             # %"records::byte_at.exit.i.i.5.i.i.i.i.i.i.i"
	leaq	42(%rax), %rdi
	cmpq	%r14, %rdi
	jae	.LBB53_226
# %bb.225:                              # %then.1.i.i.i.5.i.1.i.i.i.i.i.i
	movzbl	(%rbx,%rdi), %edi
	orq	%rdi, %r13
.LBB53_226:                             # %"records::byte_at.exit.i.i.5.i.1.i.i.i.i.i.i"
	shll	$8, %r13d
.LBB53_227:                             # %"records::byte_at.exit.i.i.5.i.1.i.i.i.i.i.i"
	addq	$41, %rax
	cmpq	%r14, %rax
	jae	.LBB53_229
# %bb.228:                              # %then.1.i.i.i.5.i.2.i.i.i.i.i.i
	movzbl	(%rbx,%rax), %eax
	orq	%rax, %r13
.LBB53_229:                             # %"records::byte_at.exit.i.i.5.i.3.i.i.i.i.i.i"
	shll	$8, %r13d
	movzbl	(%rbx,%rdx), %ebx
	orq	%r13, %rbx
	movl	$511, %eax                      # imm = 0x1FF
	cmpq	%r11, %r9
	jne	.LBB53_239
.LBB53_231:                             # %join.5.i3.i.i.i.i.i.1
	movl	$767, %eax                      # imm = 0x2FF
	cmpq	%r15, %rsi
	jne	.LBB53_239
# %bb.232:                              # %join.5.i3.i.i.i.i.i.2
	movl	$1023, %eax                     # imm = 0x3FF
	cmpq	%r12, %r8
	jne	.LBB53_239
# %bb.233:                              # %join.5.i3.i.i.i.i.i.3
	movl	$1279, %eax                     # imm = 0x4FF
	cmpq	%rbp, 24(%rsp)                  # 8-byte Folded Reload
	jne	.LBB53_239
# %bb.234:                              # %join.5.i3.i.i.i.i.i.4
	movl	$1535, %eax                     # imm = 0x5FF
	cmpq	%rcx, 16(%rsp)                  # 8-byte Folded Reload
	jne	.LBB53_239
# %bb.235:                              # %join.8.i.i.i.i.i.i.4
	cmpl	$5, %r10d
	jne	.LBB53_237
.LBB53_236:                             # %"judging::judge.exit.thread8.i.i.i"
	xorl	%eax, %eax
	jmp	.LBB53_239
.LBB53_237:                             # %join.5.i3.i.i.i.i.i.5
	movl	$1791, %eax                     # imm = 0x6FF
	cmpq	%rbx, 8(%rsp)                   # 8-byte Folded Reload
	jne	.LBB53_239
# %bb.238:                              # %join.8.i.i.i.i.i.i.5
	xorl	%ecx, %ecx
                                        # implicit-def: $rax
	testb	%cl, %cl
	je	.LBB53_236
.LBB53_239:                             # %"tteuyomal_c::decks::tteuyomal_judge.exit"
	addq	$104, %rsp
	popq	%rbx
	popq	%r12
	popq	%r13
	popq	%r14
	popq	%r15
	popq	%rbp
	retq
.Lfunc_end53:
	.size	tteuyomal_judge, .Lfunc_end53-tteuyomal_judge
                                        # -- End function
	.section	.text.tteuyomal_judge_block,"ax",@progbits
	.globl	tteuyomal_judge_block           # -- Begin function tteuyomal_judge_block
	.p2align	4
	.type	tteuyomal_judge_block,@function
tteuyomal_judge_block:                  # @tteuyomal_judge_block
# %bb.0:                                # %start
	pushq	%rbp
	pushq	%r15
	pushq	%r14
	pushq	%r13
	pushq	%r12
	pushq	%rbx
	subq	$1800, %rsp                     # imm = 0x708
	movq	%r8, %rbx
	movq	%rcx, %r14
	movq	%rdx, %r12
	movq	%rdi, %rax
	xorl	%r13d, %r13d
	testq	%rsi, %rsi
	sete	%r13b
	shll	$12, %r13d
	addq	%rsi, %r13
	xorl	%r15d, %r15d
	testq	%rcx, %rcx
	sete	%bpl
	xorps	%xmm0, %xmm0
	movaps	%xmm0, 112(%rsp)
	movq	$0, 128(%rsp)
	movaps	%xmm0, 48(%rsp)
	movaps	%xmm0, 64(%rsp)
	movaps	%xmm0, 80(%rsp)
	movq	$0, 96(%rsp)
	leaq	48(%rsp), %rdi
	leaq	256(%rsp), %r8
	movq	%rax, 16(%rsp)                  # 8-byte Spill
	movq	%rax, %rsi
	movq	%r13, %rdx
	movq	%r12, %rcx
	callq	"reach::opened"
	movq	56(%rsp), %rcx
	cmpb	$1, 48(%rsp)
	jne	.LBB54_2
# %bb.1:                                # %"claims::of_block.exit.thread.i.i.i"
	movq	64(%rsp), %rax
	jmp	.LBB54_47
.LBB54_2:                               # %arm.2.i.i.i.i
	movq	%r12, 32(%rsp)                  # 8-byte Spill
	movb	%bpl, %r15b
	shll	$12, %r15d
	addq	%r15, %r14
	movaps	64(%rsp), %xmm0
	movaps	%xmm0, 160(%rsp)                # 16-byte Spill
	movaps	80(%rsp), %xmm0
	movaps	%xmm0, 144(%rsp)                # 16-byte Spill
	movq	96(%rsp), %rax
	movq	%rax, 24(%rsp)                  # 8-byte Spill
	testq	%rbx, %rbx
	je	.LBB54_3
# %bb.4:                                # %"records::byte_at.exit.i.i.i.i.i.i.i.preheader"
	movq	%rcx, 40(%rsp)                  # 8-byte Spill
	xorl	%eax, %eax
	.p2align	4
.LBB54_5:                               # %"records::byte_at.exit.i.i.i.i.i.i.i"
                                        # =>This Inner Loop Header: Depth=1
	cmpb	$7, (%r14,%rax)
	je	.LBB54_10
# %bb.6:                                # %join.8.i.i.i.i.i.i.i
                                        #   in Loop: Header=BB54_5 Depth=1
	leaq	1(%rax), %rdx
	movl	$2, %ecx
	cmpq	%rbx, %rdx
	jae	.LBB54_8
# %bb.7:                                # %then.1.i.i.i.i.i.i.i.i.i
                                        #   in Loop: Header=BB54_5 Depth=1
	movzbl	(%r14,%rdx), %ecx
	addq	$2, %rcx
.LBB54_8:                               # %"claiming::size_at.exit.i.i.i.i.i.i.i"
                                        #   in Loop: Header=BB54_5 Depth=1
	movq	%rbx, %rdx
	subq	%rax, %rdx
	xorl	%r12d, %r12d
	cmpq	%rcx, %rdx
	jbe	.LBB54_13
# %bb.9:                                # %"claiming::size_at.exit.i.i.i.i.i.i.i"
                                        #   in Loop: Header=BB54_5 Depth=1
	addq	%rcx, %rax
	cmpq	%rbx, %rax
	jb	.LBB54_5
	jmp	.LBB54_13
.LBB54_3:
	xorl	%r15d, %r15d
	xorl	%ebp, %ebp
	xorl	%r12d, %r12d
	xorl	%eax, %eax
	jmp	.LBB54_39
.LBB54_10:                              # %then.1.i.i.i.i.i.i
	xorps	%xmm0, %xmm0
	movaps	%xmm0, 48(%rsp)
	movq	$0, 64(%rsp)
	leaq	48(%rsp), %rdi
	leaq	256(%rsp), %r8
	movl	$192, %r9d
	movq	16(%rsp), %rsi                  # 8-byte Reload
	movq	%r13, %rdx
	movq	32(%rsp), %rcx                  # 8-byte Reload
	callq	"szeged::terms"
	cmpb	$1, 48(%rsp)
	je	.LBB54_11
# %bb.12:                               # %then.1.i.i.i.i.i.i
	movq	56(%rsp), %r12
	jmp	.LBB54_13
.LBB54_11:
	xorl	%r12d, %r12d
.LBB54_13:                              # %"claims::szeged_asked.exit.i.i.i.i.i"
	xorl	%eax, %eax
	.p2align	4
.LBB54_14:                              # %"records::byte_at.exit.i.i6.i.i.i.i.i"
                                        # =>This Inner Loop Header: Depth=1
	cmpb	$8, (%r14,%rax)
	je	.LBB54_25
# %bb.15:                               # %join.8.i.i11.i.i.i.i.i
                                        #   in Loop: Header=BB54_14 Depth=1
	leaq	1(%rax), %rdx
	movl	$2, %ecx
	cmpq	%rbx, %rdx
	jae	.LBB54_17
# %bb.16:                               # %then.1.i.i.i.i21.i.i.i.i.i
                                        #   in Loop: Header=BB54_14 Depth=1
	movzbl	(%r14,%rdx), %ecx
	addq	$2, %rcx
.LBB54_17:                              # %"claiming::size_at.exit.i.i14.i.i.i.i.i"
                                        #   in Loop: Header=BB54_14 Depth=1
	movq	%rbx, %rdx
	subq	%rax, %rdx
	cmpq	%rcx, %rdx
	jbe	.LBB54_19
# %bb.18:                               # %"claiming::size_at.exit.i.i14.i.i.i.i.i"
                                        #   in Loop: Header=BB54_14 Depth=1
	addq	%rcx, %rax
	cmpq	%rbx, %rax
	jb	.LBB54_14
.LBB54_19:                              # %"records::byte_at.exit.i4.i.i.i.i.i.i.preheader"
	xorl	%eax, %eax
	.p2align	4
.LBB54_20:                              # %"records::byte_at.exit.i4.i.i.i.i.i.i"
                                        # =>This Inner Loop Header: Depth=1
	cmpb	$9, (%r14,%rax)
	je	.LBB54_25
# %bb.21:                               # %join.8.i10.i.i.i.i.i.i
                                        #   in Loop: Header=BB54_20 Depth=1
	leaq	1(%rax), %rdx
	movl	$2, %ecx
	cmpq	%rbx, %rdx
	jae	.LBB54_23
# %bb.22:                               # %then.1.i.i.i21.i.i.i.i.i.i
                                        #   in Loop: Header=BB54_20 Depth=1
	movzbl	(%r14,%rdx), %ecx
	addq	$2, %rcx
.LBB54_23:                              # %"claiming::size_at.exit.i13.i.i.i.i.i.i"
                                        #   in Loop: Header=BB54_20 Depth=1
	movq	%rbx, %rdx
	subq	%rax, %rdx
	xorl	%ebp, %ebp
	cmpq	%rcx, %rdx
	jbe	.LBB54_24
# %bb.27:                               # %"claiming::size_at.exit.i13.i.i.i.i.i.i"
                                        #   in Loop: Header=BB54_20 Depth=1
	addq	%rcx, %rax
	movl	$0, %r15d
	cmpq	%rbx, %rax
	jb	.LBB54_20
	jmp	.LBB54_29
.LBB54_25:                              # %then.1.i24.i.i.i.i.i
	xorps	%xmm0, %xmm0
	movaps	%xmm0, 256(%rsp)
	movq	$0, 272(%rsp)
	leaq	256(%rsp), %rdi
	movq	16(%rsp), %rsi                  # 8-byte Reload
	movq	%r13, %rdx
	movq	32(%rsp), %rcx                  # 8-byte Reload
	callq	"sets::count"
	cmpb	$1, 256(%rsp)
	je	.LBB54_26
# %bb.28:                               # %then.5.i.i.i.i.i.i
	movq	264(%rsp), %r15
	movq	272(%rsp), %rbp
	jmp	.LBB54_29
.LBB54_26:
	xorl	%r15d, %r15d
	xorl	%ebp, %ebp
	jmp	.LBB54_29
.LBB54_24:
	xorl	%r15d, %r15d
.LBB54_29:                              # %"claims::sets_asked.exit.i.i.i.i.i"
	xorl	%ecx, %ecx
	.p2align	4
.LBB54_30:                              # %"records::byte_at.exit.i.i27.i.i.i.i.i"
                                        # =>This Inner Loop Header: Depth=1
	cmpb	$10, (%r14,%rcx)
	je	.LBB54_35
# %bb.31:                               # %join.8.i.i32.i.i.i.i.i
                                        #   in Loop: Header=BB54_30 Depth=1
	leaq	1(%rcx), %rax
	movl	$2, %edx
	cmpq	%rbx, %rax
	jae	.LBB54_33
# %bb.32:                               # %then.1.i.i.i.i43.i.i.i.i.i
                                        #   in Loop: Header=BB54_30 Depth=1
	movzbl	(%r14,%rax), %edx
	addq	$2, %rdx
.LBB54_33:                              # %"claiming::size_at.exit.i.i35.i.i.i.i.i"
                                        #   in Loop: Header=BB54_30 Depth=1
	movq	%rbx, %rsi
	subq	%rcx, %rsi
	xorl	%eax, %eax
	cmpq	%rdx, %rsi
	jbe	.LBB54_38
# %bb.34:                               # %"claiming::size_at.exit.i.i35.i.i.i.i.i"
                                        #   in Loop: Header=BB54_30 Depth=1
	addq	%rdx, %rcx
	cmpq	%rbx, %rcx
	jb	.LBB54_30
	jmp	.LBB54_38
.LBB54_35:                              # %then.1.i46.i.i.i.i.i
	xorps	%xmm0, %xmm0
	movaps	%xmm0, 256(%rsp)
	movq	$0, 272(%rsp)
	leaq	256(%rsp), %rdi
	movq	16(%rsp), %rsi                  # 8-byte Reload
	movq	%r13, %rdx
	movq	32(%rsp), %rcx                  # 8-byte Reload
	callq	"balaban::index"
	cmpb	$1, 256(%rsp)
	je	.LBB54_36
# %bb.37:                               # %then.1.i46.i.i.i.i.i
	movq	264(%rsp), %rax
	jmp	.LBB54_38
.LBB54_36:
	xorl	%eax, %eax
.LBB54_38:                              # %then.1.i46.i.i.i.i.i
	movq	40(%rsp), %rcx                  # 8-byte Reload
.LBB54_39:                              # %"claims::block_fields.exit.i.i.i.i"
	movq	24(%rsp), %rdx                  # 8-byte Reload
	movq	%rcx, 176(%rsp)
	movaps	160(%rsp), %xmm0                # 16-byte Reload
	movups	%xmm0, 184(%rsp)
	movaps	144(%rsp), %xmm0                # 16-byte Reload
	movups	%xmm0, 200(%rsp)
	movq	%rdx, 216(%rsp)
	movq	%r12, 224(%rsp)
	movq	%r15, 232(%rsp)
	movq	%rbp, 240(%rsp)
	movq	%rax, 248(%rsp)
	movq	32(%rsp), %rsi                  # 8-byte Reload
	shrq	%rsi
	leaq	2(%rsi), %rcx
	subq	16(%rsp), %rcx                  # 8-byte Folded Reload
	je	.LBB54_50
# %bb.40:                               # %"claims::of_block.exit.i.i.i"
	movq	%rsi, %rax
	imulq	%rsi, %rax
	movq	%rax, %rdx
	orq	%rcx, %rdx
	shrq	$32, %rdx
	je	.LBB54_41
# %bb.42:
	xorl	%edx, %edx
	divq	%rcx
	jmp	.LBB54_43
.LBB54_41:
                                        # kill: def $eax killed $eax killed $rax
	xorl	%edx, %edx
	divl	%ecx
                                        # kill: def $eax killed $eax def $rax
.LBB54_43:
	incq	%rax
	incq	%rsi
	xorl	%ecx, %ecx
	cmpq	16(%rsp), %rsi                  # 8-byte Folded Reload
	sete	%cl
	movl	%ecx, (%rsp)
	leaq	112(%rsp), %rdi
	leaq	176(%rsp), %rcx
	movl	$10, %r8d
	movq	%r14, %rsi
	movq	%rbx, %rdx
	movq	%rax, %r9
	callq	"claiming::judged"
	movzbl	112(%rsp), %eax
	movq	120(%rsp), %rcx
	cmpl	$2, %eax
	je	.LBB54_48
# %bb.44:
	cmpl	$1, %eax
	jne	.LBB54_46
# %bb.45:
	xorl	%eax, %eax
	jmp	.LBB54_49
.LBB54_48:                              # %arm.3.i.i.i.i
	shlq	$8, %rcx
	orq	$255, %rcx
	movq	%rcx, %rax
	jmp	.LBB54_49
.LBB54_46:
	movq	128(%rsp), %rax
.LBB54_47:                              # %arm.1.i1.i.i.i
	movzbl	%cl, %ecx
	shlq	$8, %rax
	orq	%rcx, %rax
.LBB54_49:                              # %"tteuyomal_c::claims_printed::tteuyomal_judge_block.exit"
	addq	$1800, %rsp                     # imm = 0x708
	popq	%rbx
	popq	%r12
	popq	%r13
	popq	%r14
	popq	%r15
	popq	%rbp
	retq
.LBB54_50:                              # %trap.1.i.i.i.i.i
	ud2
.Lfunc_end54:
	.size	tteuyomal_judge_block, .Lfunc_end54-tteuyomal_judge_block
                                        # -- End function
	.section	.text.tteuyomal_judge_claims,"ax",@progbits
	.globl	tteuyomal_judge_claims          # -- Begin function tteuyomal_judge_claims
	.p2align	4
	.type	tteuyomal_judge_claims,@function
tteuyomal_judge_claims:                 # @tteuyomal_judge_claims
# %bb.0:                                # %start
	pushq	%r14
	pushq	%rbx
	subq	$168, %rsp
	movq	%rcx, %rbx
	movq	%rdx, %r14
	movq	%rsi, %rdx
	xorl	%esi, %esi
	testq	%rdi, %rdi
	sete	%sil
	shll	$12, %esi
	addq	%rdi, %rsi
	xorps	%xmm0, %xmm0
	movaps	%xmm0, 16(%rsp)
	movq	$0, 32(%rsp)
	movaps	%xmm0, 96(%rsp)
	movaps	%xmm0, 80(%rsp)
	movaps	%xmm0, 64(%rsp)
	movaps	%xmm0, 48(%rsp)
	leaq	48(%rsp), %rdi
	xorl	%ecx, %ecx
	callq	"compose::fields"
	cmpb	$0, 48(%rsp)
	movq	56(%rsp), %rcx
	movq	64(%rsp), %rax
	je	.LBB55_1
.LBB55_4:                               # %arm.1.i1.i.i.i
	movzbl	%cl, %ecx
	shlq	$8, %rax
	orq	%rcx, %rax
.LBB55_6:                               # %"tteuyomal_c::claims_printed::tteuyomal_judge_claims.exit"
	addq	$168, %rsp
	popq	%rbx
	popq	%r14
	retq
.LBB55_1:                               # %"claims::of_deck.exit.i.i.i"
	xorl	%esi, %esi
	testq	%r14, %r14
	sete	%sil
	shll	$12, %esi
	addq	%r14, %rsi
	movups	72(%rsp), %xmm0
	movups	88(%rsp), %xmm1
	movq	%rcx, 120(%rsp)
	movq	%rax, 128(%rsp)
	movups	%xmm0, 136(%rsp)
	movups	%xmm1, 152(%rsp)
	movl	$1, (%rsp)
	leaq	16(%rsp), %rdi
	leaq	120(%rsp), %rcx
	movl	$6, %r8d
	movq	%rbx, %rdx
	xorl	%r9d, %r9d
	callq	"claiming::judged"
	movzbl	16(%rsp), %eax
	movq	24(%rsp), %rcx
	cmpl	$2, %eax
	je	.LBB55_5
# %bb.2:                                # %"claims::of_deck.exit.i.i.i"
	cmpl	$1, %eax
	movl	$0, %eax
	je	.LBB55_6
# %bb.3:                                # %"claims::of_deck.exit.i.i.i"
	movq	32(%rsp), %rax
	jmp	.LBB55_4
.LBB55_5:                               # %arm.3.i.i.i.i
	shlq	$8, %rcx
	orq	$255, %rcx
	movq	%rcx, %rax
	addq	$168, %rsp
	popq	%rbx
	popq	%r14
	retq
.Lfunc_end55:
	.size	tteuyomal_judge_claims, .Lfunc_end55-tteuyomal_judge_claims
                                        # -- End function
	.section	.text.tteuyomal_library_best,"ax",@progbits
	.globl	tteuyomal_library_best          # -- Begin function tteuyomal_library_best
	.p2align	4
	.type	tteuyomal_library_best,@function
tteuyomal_library_best:                 # @tteuyomal_library_best
# %bb.0:                                # %start
	pushq	%rbp
	pushq	%r15
	pushq	%r14
	pushq	%r13
	pushq	%r12
	pushq	%rbx
	movq	%rsp, %r11
	subq	$33792, %r11                    # imm = 0x8400
.LBB56_1:                               # %start
                                        # =>This Inner Loop Header: Depth=1
	subq	$3072, %rsp                     # imm = 0xC00
	movq	$0, (%rsp)
	cmpq	%r11, %rsp
	jne	.LBB56_1
# %bb.2:                                # %start
	subq	$616, %rsp                      # imm = 0x268
	movq	%r8, 40(%rsp)                   # 8-byte Spill
	movq	%rcx, 32(%rsp)                  # 8-byte Spill
	movq	%rdx, %r14
	movq	%rsi, %r13
	movq	34472(%rsp), %rcx
	xorl	%ebp, %ebp
	testq	%rdi, %rdi
	sete	%bpl
	shll	$12, %ebp
	addq	%rdi, %rbp
	testq	%r9, %r9
	sete	%dl
	xorl	%r15d, %r15d
	testq	%rcx, %rcx
	sete	%al
	cmpq	$0, 34480(%rsp)
	je	.LBB56_3
# %bb.5:                                # %join.3.i.i.i
	movq	%r9, %rbx
	movb	%dl, 31(%rsp)                   # 1-byte Spill
	movb	%al, %r15b
	shll	$12, %r15d
	movq	(%rcx,%r15), %r12
	leaq	1632(%rsp), %rdi
	movl	$32768, %edx                    # imm = 0x8000
	xorl	%esi, %esi
	callq	memset@PLT
	xorps	%xmm0, %xmm0
	movaps	%xmm0, 48(%rsp)
	movq	$0, 64(%rsp)
	leaq	48(%rsp), %rdi
	movl	$4096, %r9d                     # imm = 0x1000
	movq	%rbp, %rsi
	movq	%r13, %rdx
	movq	%r14, %rcx
	leaq	1632(%rsp), %r8
	callq	"library::values"
	movq	56(%rsp), %r13
	cmpb	$0, 48(%rsp)
	je	.LBB56_6
# %bb.38:                               # %arm.2.i.i.i.i.i
	movq	64(%rsp), %rax
	movzbl	%r13b, %ecx
	jmp	.LBB56_39
.LBB56_3:                               # %then.1.i.i.i
	xorps	%xmm0, %xmm0
	movaps	%xmm0, 1632(%rsp)
	movq	$0, 1648(%rsp)
	leaq	1632(%rsp), %rdi
	leaq	96(%rsp), %r8
	movl	$1, %r9d
	movq	%rbp, %rsi
	movq	%r13, %rdx
	movq	%r14, %rcx
	callq	"library::values"
	movl	$9, %eax
	cmpb	$1, 1632(%rsp)
	jne	.LBB56_40
# %bb.4:                                # %arm.1.i.i.i.i
	movzbl	1640(%rsp), %ecx
	movq	1648(%rsp), %rax
.LBB56_39:                              # %"tteuyomal_c::libraries::tteuyomal_library_best.exit"
	shlq	$8, %rax
	orq	%rcx, %rax
.LBB56_40:                              # %"tteuyomal_c::libraries::tteuyomal_library_best.exit"
	addq	$34408, %rsp                    # imm = 0x8668
	popq	%rbx
	popq	%r12
	popq	%r13
	popq	%r14
	popq	%r15
	popq	%rbp
	retq
.LBB56_6:                               # %arm.1.i.i.i.i.i
	movq	%r15, 80(%rsp)                  # 8-byte Spill
	movq	34464(%rsp), %rcx
	movl	$9, %eax
	cmpq	$3, %rcx
	jb	.LBB56_40
# %bb.7:                                # %join.7.i.i.i.i.i
	xorl	%eax, %eax
	movzbl	31(%rsp), %edx                  # 1-byte Folded Reload
	movb	%dl, %al
	shll	$12, %eax
	addq	%rax, %rbx
	movabsq	$-6148914691236517205, %rdx     # imm = 0xAAAAAAAAAAAAAAAB
	movq	%rcx, %rax
	mulq	%rdx
	movq	%rdx, %rbp
	shrq	%rbp
	cmpq	%r12, %rbp
	cmovbq	%rbp, %r12
	jbe	.LBB56_11
# %bb.8:                                # %then.1.i.i.i.i.i.i.i
	cmpq	$8, %r13
	movq	32(%rsp), %r15                  # 8-byte Reload
	ja	.LBB56_20
	jmp	.LBB56_9
.LBB56_11:                              # %join.3.i.i.i.i.i.i.i
	testq	%r12, %r12
	movq	32(%rsp), %r15                  # 8-byte Reload
	je	.LBB56_9
# %bb.12:                               # %join.6.i.i.i.i.i.i.i
	testq	%r13, %r13
	je	.LBB56_9
# %bb.13:                               # %join.11.i.i.i.i.i.i.i.preheader
	leaq	(%r12,%r12,2), %rax
	movq	-24(%rbx,%rax,8), %rax
	cmpq	$1, %r13
	jne	.LBB56_15
# %bb.14:
	xorl	%ecx, %ecx
	xorl	%edx, %edx
	jmp	.LBB56_18
.LBB56_15:                              # %join.11.i.i.i.i.i.i.i.preheader.new
	movq	%r13, %rsi
	andq	$-2, %rsi
	xorl	%ecx, %ecx
	xorl	%edx, %edx
	.p2align	4
.LBB56_16:                              # %join.11.i.i.i.i.i.i.i
                                        # =>This Inner Loop Header: Depth=1
	movq	1632(%rsp,%rdx,8), %rdi
	movq	1640(%rsp,%rdx,8), %r8
	xorl	%r9d, %r9d
	xorl	%r10d, %r10d
	cmpq	%rdi, %rax
	setb	%r9b
	seta	%r10b
	xorl	%edi, %edi
	xorl	%r11d, %r11d
	cmpq	%r8, %rax
	seta	%r11b
	setb	%dil
	testq	%r15, %r15
	cmovnel	%r9d, %r10d
	movzbl	%r10b, %r8d
	cmovnel	%edi, %r11d
	addq	%rcx, %r8
	movzbl	%r11b, %ecx
	addq	%r8, %rcx
	addq	$2, %rdx
	cmpq	%rdx, %rsi
	jne	.LBB56_16
# %bb.17:                               # %"placing::parts::many_come.exit.i.i.i.i.i.i.unr-lcssa"
	testb	$1, %r13b
	je	.LBB56_19
.LBB56_18:                              # %join.11.i.i.i.i.i.i.i.epil.preheader
	movq	%rcx, %rsi
	movq	1632(%rsp,%rdx,8), %rcx
	xorl	%edx, %edx
	xorl	%edi, %edi
	cmpq	%rcx, %rax
	setb	%dl
	seta	%dil
	testq	%r15, %r15
	cmovnel	%edx, %edi
	movzbl	%dil, %ecx
	addq	%rsi, %rcx
.LBB56_19:                              # %"placing::parts::many_come.exit.i.i.i.i.i.i"
	movq	%r13, %rax
	shrq	$3, %rax
	cmpq	%rcx, %rax
	jae	.LBB56_9
.LBB56_20:                              # %then.1.i.i.i.i.i.i
	cmpq	$2, %r12
	jb	.LBB56_25
# %bb.21:                               # %join.5.i.i.i.i.i.i.i.preheader
	leaq	-2(%r12), %rax
	movq	%rbx, %rcx
	.p2align	4
.LBB56_22:                              # %join.5.i.i.i.i.i.i.i
                                        # =>This Inner Loop Header: Depth=1
	movq	(%rcx), %rsi
	movq	24(%rcx), %rdi
	xorl	%r8d, %r8d
	xorl	%edx, %edx
	cmpq	%rdi, %rsi
	seta	%dl
	setb	%r8b
	testq	%r15, %r15
	cmovnel	%r8d, %edx
	subq	$1, %rax
	setb	%sil
	testb	%dl, %dl
	jne	.LBB56_24
# %bb.23:                               # %join.5.i.i.i.i.i.i.i
                                        #   in Loop: Header=BB56_22 Depth=1
	addq	$24, %rcx
	testb	%sil, %sil
	je	.LBB56_22
.LBB56_24:                              # %"placing::merge::in_order.exit.i.i.i.i.i.i"
	testb	%dl, %dl
	je	.LBB56_25
.LBB56_9:                               # %join.3.i.i.i.i.i.i
	xorl	%edi, %edi
	testq	%r15, %r15
	setne	%dil
	movq	%r12, 8(%rsp)
	movq	%rbp, (%rsp)
	leaq	1632(%rsp), %rdx
	movq	40(%rsp), %rsi                  # 8-byte Reload
	xorl	%ecx, %ecx
	movq	%r13, %r8
	movq	%rbx, %r9
	callq	"placing::entries::put_each"
	movq	%rax, %r12
.LBB56_10:                              # %join.5.i.i.i.i.i.i
	movq	34472(%rsp), %rax
	movq	80(%rsp), %rcx                  # 8-byte Reload
	movq	%r12, (%rax,%rcx)
	xorl	%eax, %eax
	jmp	.LBB56_40
.LBB56_25:                              # %then.4.i.i.i.i.i.i
	leaq	96(%rsp), %rdi
	xorl	%r14d, %r14d
	movl	$1536, %edx                     # imm = 0x600
	xorl	%esi, %esi
	callq	memset@PLT
	movq	%r13, 88(%rsp)                  # 8-byte Spill
	jmp	.LBB56_26
	.p2align	4
.LBB56_37:                              # %"placing::merge::merge_in.exit.i.i.i.i.i.i.i.i"
                                        #   in Loop: Header=BB56_26 Depth=1
	addq	%rax, %r12
	cmpq	%r12, %rbp
	cmovbq	%rbp, %r12
	addq	%r13, %r14
	movq	88(%rsp), %r13                  # 8-byte Reload
	cmpq	%r13, %r14
	movq	32(%rsp), %r15                  # 8-byte Reload
	jae	.LBB56_10
.LBB56_26:                              # %join.5.i.i.i.i.i.i.i.i
                                        # =>This Loop Header: Depth=1
                                        #     Child Loop BB56_28 Depth 2
	xorl	%edi, %edi
	testq	%r15, %r15
	setne	%dil
	movq	%r13, %rax
	subq	%r14, %rax
	cmpq	$64, %rax
	movl	$64, %r13d
	cmovbq	%rax, %r13
	movq	$0, 8(%rsp)
	movq	$64, (%rsp)
	leaq	1632(%rsp), %rdx
	leaq	96(%rsp), %r9
	movq	40(%rsp), %rsi                  # 8-byte Reload
	movq	%r14, %rcx
	movq	%r13, %r8
	callq	"placing::entries::put_each"
	testq	%rax, %rax
	je	.LBB56_37
# %bb.27:                               # %join.5.i.i.i.i.i.i.i.i.i.preheader
                                        #   in Loop: Header=BB56_26 Depth=1
	movq	%r12, %rcx
	movq	%rax, %rdx
	jmp	.LBB56_28
	.p2align	4
.LBB56_35:                              # %join.8.i.i.i.i.i.i.i.i.i
                                        #   in Loop: Header=BB56_28 Depth=2
	movq	%rsi, %rdx
	testq	%rdx, %rdx
	je	.LBB56_37
.LBB56_28:                              # %join.5.i.i.i.i.i.i.i.i.i
                                        #   Parent Loop BB56_26 Depth=1
                                        # =>  This Inner Loop Header: Depth=2
	leaq	-1(%rdx), %rsi
	leaq	(%rdx,%rcx), %rdi
	decq	%rdi
	testq	%rcx, %rcx
	je	.LBB56_33
# %bb.29:                               # %"placing::merge::moves_up.exit.i.i.i.i.i.i.i.i.i"
                                        #   in Loop: Header=BB56_28 Depth=2
	leaq	(%rsi,%rsi,2), %r8
	movq	96(%rsp,%r8,8), %r10
	leaq	(,%rcx,8), %r8
	leaq	(%r8,%r8,2), %r8
	movq	-24(%rbx,%r8), %r9
	xorl	%r11d, %r11d
	xorl	%r15d, %r15d
	cmpq	%r10, %r9
	setb	%r11b
	seta	%r15b
	cmpq	$0, 32(%rsp)                    # 8-byte Folded Reload
	cmovnel	%r11d, %r15d
	cmpb	$1, %r15b
	jne	.LBB56_33
# %bb.30:                               # %then.6.i.i.i.i.i.i.i.i.i
                                        #   in Loop: Header=BB56_28 Depth=2
	cmpq	%rbp, %rdi
	jae	.LBB56_32
# %bb.31:                               # %then.1.i.i.i.i.i.i.i.i.i.i.i
                                        #   in Loop: Header=BB56_28 Depth=2
	leaq	(%rdi,%rdi,2), %rsi
	movups	-16(%rbx,%r8), %xmm0
	movq	%r9, (%rbx,%rsi,8)
	movups	%xmm0, 8(%rbx,%rsi,8)
.LBB56_32:                              # %"placing::merge::move_last.exit.i.i.i.i.i.i.i.i.i"
                                        #   in Loop: Header=BB56_28 Depth=2
	decq	%rcx
	testq	%rdx, %rdx
	jne	.LBB56_28
	jmp	.LBB56_37
	.p2align	4
.LBB56_33:                              # %else.7.i.i.i.i.i.i.i.i.i
                                        #   in Loop: Header=BB56_28 Depth=2
	cmpq	%rbp, %rdi
	jae	.LBB56_35
# %bb.34:                               # %then.1.i.i14.i.i.i.i.i.i.i.i.i
                                        #   in Loop: Header=BB56_28 Depth=2
	leaq	(%rdx,%rdx,2), %rdx
	movq	88(%rsp,%rdx,8), %r8
	leaq	(%rdi,%rdi,2), %rdi
	movups	72(%rsp,%rdx,8), %xmm0
	movups	%xmm0, (%rbx,%rdi,8)
	movq	%r8, 16(%rbx,%rdi,8)
	jmp	.LBB56_35
.Lfunc_end56:
	.size	tteuyomal_library_best, .Lfunc_end56-tteuyomal_library_best
                                        # -- End function
	.section	.text.tteuyomal_library_count,"ax",@progbits
	.globl	tteuyomal_library_count         # -- Begin function tteuyomal_library_count
	.p2align	4
	.type	tteuyomal_library_count,@function
tteuyomal_library_count:                # @tteuyomal_library_count
# %bb.0:                                # %start
	pushq	%rbp
	pushq	%r15
	pushq	%r14
	pushq	%rbx
	subq	$264, %rsp                      # imm = 0x108
	movq	%rcx, %r14
	movq	%rdx, %rbx
	movq	%rsi, %rdx
	xorl	%esi, %esi
	testq	%rdi, %rdi
	sete	%sil
	shll	$12, %esi
	addq	%rdi, %rsi
	xorl	%r15d, %r15d
	testq	%rbx, %rbx
	sete	%bpl
	xorps	%xmm0, %xmm0
	movaps	%xmm0, 16(%rsp)
	movaps	%xmm0, 32(%rsp)
	movaps	%xmm0, 48(%rsp)
	movaps	%xmm0, 64(%rsp)
	movaps	%xmm0, 80(%rsp)
	movaps	%xmm0, 96(%rsp)
	movaps	%xmm0, 112(%rsp)
	movaps	%xmm0, 128(%rsp)
	movaps	%xmm0, 144(%rsp)
	movaps	%xmm0, 160(%rsp)
	movaps	%xmm0, 176(%rsp)
	movaps	%xmm0, 192(%rsp)
	movaps	%xmm0, 208(%rsp)
	movaps	%xmm0, 224(%rsp)
	movaps	%xmm0, 240(%rsp)
	movq	$0, 256(%rsp)
	leaq	16(%rsp), %rdi
	leaq	15(%rsp), %rcx
	movl	$1, %r8d
	callq	"catalogue::read_library"
	cmpb	$0, 16(%rsp)
	je	.LBB57_2
# %bb.1:                                # %arm.1.i.i.i.i
	movq	32(%rsp), %rax
	movzbl	24(%rsp), %ecx
	shlq	$8, %rax
	orq	%rcx, %rax
	jmp	.LBB57_5
.LBB57_2:                               # %arm.2.i.i.i.i
	testq	%r14, %r14
	je	.LBB57_3
# %bb.4:                                # %join.5.i.i.i.i.i.i
	movb	%bpl, %r15b
	shll	$12, %r15d
	movq	256(%rsp), %rax
	movq	%rax, (%rbx,%r15)
	xorl	%eax, %eax
	jmp	.LBB57_5
.LBB57_3:
	movl	$9, %eax
.LBB57_5:                               # %"tteuyomal_c::libraries::tteuyomal_library_count.exit"
	addq	$264, %rsp                      # imm = 0x108
	popq	%rbx
	popq	%r14
	popq	%r15
	popq	%rbp
	retq
.Lfunc_end57:
	.size	tteuyomal_library_count, .Lfunc_end57-tteuyomal_library_count
                                        # -- End function
	.section	.text.tteuyomal_library_run,"ax",@progbits
	.globl	tteuyomal_library_run           # -- Begin function tteuyomal_library_run
	.p2align	4
	.type	tteuyomal_library_run,@function
tteuyomal_library_run:                  # @tteuyomal_library_run
# %bb.0:                                # %start
	pushq	%rbp
	pushq	%r15
	pushq	%r14
	pushq	%r13
	pushq	%r12
	pushq	%rbx
	subq	$3072, %rsp                     # imm = 0xC00
	movq	$0, (%rsp)
	subq	$3072, %rsp                     # imm = 0xC00
	movq	$0, (%rsp)
	subq	$2008, %rsp                     # imm = 0x7D8
	movq	%r9, 40(%rsp)                   # 8-byte Spill
	movq	%rcx, %r12
	movq	%rdx, 48(%rsp)                  # 8-byte Spill
	xorl	%ebp, %ebp
	testq	%rdi, %rdi
	sete	%bpl
	shll	$12, %ebp
	addq	%rdi, %rbp
	xorl	%ebx, %ebx
	testq	%r8, %r8
	sete	%r13b
	cmpq	$0, 8208(%rsp)
	sete	%r15b
	xorps	%xmm0, %xmm0
	cmpq	$0, 8216(%rsp)
	je	.LBB58_1
# %bb.6:                                # %join.3.i.i.i
	movaps	%xmm0, 384(%rsp)
	movaps	%xmm0, 400(%rsp)
	movaps	%xmm0, 416(%rsp)
	movaps	%xmm0, 432(%rsp)
	movaps	%xmm0, 448(%rsp)
	movaps	%xmm0, 464(%rsp)
	movaps	%xmm0, 480(%rsp)
	movaps	%xmm0, 496(%rsp)
	movaps	%xmm0, 512(%rsp)
	movaps	%xmm0, 528(%rsp)
	movaps	%xmm0, 544(%rsp)
	movaps	%xmm0, 560(%rsp)
	movaps	%xmm0, 576(%rsp)
	movaps	%xmm0, 592(%rsp)
	movaps	%xmm0, 608(%rsp)
	movq	$0, 624(%rsp)
	movl	$20, %eax
	cmpq	$32768, %rsi                    # imm = 0x8000
	ja	.LBB58_37
# %bb.7:                                # %join.3.i8.i.i.i
	xorl	%eax, %eax
	cmpq	$4, 48(%rsp)                    # 8-byte Folded Reload
	sete	%al
	leaq	40(,%rax,4), %rcx
	movl	$9, %eax
	cmpq	%rcx, 40(%rsp)                  # 8-byte Folded Reload
	jb	.LBB58_37
# %bb.8:                                # %join.6.i10.i.i.i
	movq	%rcx, 96(%rsp)                  # 8-byte Spill
	movq	%r8, %r14
	leaq	384(%rsp), %rdi
	leaq	31(%rsp), %rcx
	movl	$1, %r8d
	movq	%rsi, %rdx
	movq	%rbp, %rsi
	movq	%rdx, 32(%rsp)                  # 8-byte Spill
	callq	"catalogue::read_library"
	cmpb	$0, 384(%rsp)
	je	.LBB58_9
# %bb.35:                               # %arm.8.i11.i.i.i
	movq	400(%rsp), %rax
	movzbl	392(%rsp), %ecx
	jmp	.LBB58_36
.LBB58_1:                               # %then.1.i.i.i
	movaps	%xmm0, 688(%rsp)
	movaps	%xmm0, 672(%rsp)
	movaps	%xmm0, 656(%rsp)
	movaps	%xmm0, 640(%rsp)
	movl	$20, %eax
	cmpq	$32768, %rsi                    # imm = 0x8000
	ja	.LBB58_37
# %bb.2:                                # %join.3.i.i.i.i
	xorl	%eax, %eax
	cmpq	$4, 48(%rsp)                    # 8-byte Folded Reload
	sete	%al
	leaq	40(,%rax,4), %rcx
	movl	$9, %eax
	cmpq	%rcx, 40(%rsp)                  # 8-byte Folded Reload
	jb	.LBB58_37
# %bb.3:                                # %join.6.i.i.i.i
	leaq	640(%rsp), %rdi
	movq	%rsi, %rdx
	movq	%rbp, %rsi
	movq	%r12, %rcx
	callq	"library::product"
	cmpb	$1, 640(%rsp)
	jne	.LBB58_5
# %bb.4:                                # %arm.7.i.i.i.i
	movzbl	648(%rsp), %ecx
	movq	656(%rsp), %rax
.LBB58_36:                              # %"tteuyomal_c::libraries::tteuyomal_library_run.exit"
	shlq	$8, %rax
	orq	%rcx, %rax
	jmp	.LBB58_37
.LBB58_9:                               # %arm.7.i12.i.i.i
	movq	624(%rsp), %rax
	movq	%rax, 152(%rsp)                 # 8-byte Spill
	cmpq	%r12, %rax
	jbe	.LBB58_10
# %bb.11:                               # %join.13.i.i.i.i
	movb	%r13b, %bl
	shll	$12, %ebx
	xorl	%eax, %eax
	movb	%r15b, %al
	shll	$12, %eax
	movq	%rax, 120(%rsp)                 # 8-byte Spill
	movq	408(%rsp), %rax
	movq	%rax, 56(%rsp)                  # 8-byte Spill
	movq	544(%rsp), %r13
	movq	552(%rsp), %rax
	movq	%rax, 144(%rsp)                 # 8-byte Spill
	leaq	4568(%rsp), %rdi
	movl	$3584, %edx                     # imm = 0xE00
	xorl	%esi, %esi
	callq	memset@PLT
	movq	32(%rsp), %rcx                  # 8-byte Reload
	cmpq	%r13, %rcx
	jae	.LBB58_13
# %bb.12:
	movq	%rcx, %r13
	movq	%r14, %rax
	xorl	%r14d, %r14d
	jmp	.LBB58_18
.LBB58_5:                               # %arm.8.i.i.i.i
	cmpb	$0, 648(%rsp)
	movl	$254, %ecx
	movl	$9, %eax
	cmoveq	%rcx, %rax
	jmp	.LBB58_37
.LBB58_10:                              # %arm.2.i.thread.i.i.i
	movl	$254, %eax
	jmp	.LBB58_37
.LBB58_13:                              # %join.3.i.i.i.i.i.i
	leaq	4(%r13), %rdx
	cmpq	%rcx, %r13
	movq	%r14, %rax
	jae	.LBB58_14
# %bb.15:                               # %"records::byte_at.exit.i.i.i.i.i.i.i"
	movzbl	(%rbp,%r13), %esi
	incq	%r13
	cmpq	%rcx, %r13
	jae	.LBB58_17
# %bb.16:                               # %then.1.i6.i.i.i.i.i.i.i
	movzbl	(%rbp,%r13), %edi
	shll	$8, %edi
	movzwl	%si, %esi
	orl	%edi, %esi
	jmp	.LBB58_17
.LBB58_14:
	xorl	%esi, %esi
.LBB58_17:                              # %"records::le16_at.exit.i.i.i.i.i.i"
	movq	%rcx, %rdi
	subq	%rdx, %rdi
	movq	%rdx, %r13
	cmovbq	%rcx, %r13
	movzwl	%si, %esi
	cmpq	%rsi, %rdi
	cmovaeq	%rsi, %rdi
	xorl	%r14d, %r14d
	cmpq	%rdx, %rcx
	cmovaeq	%rdi, %r14
.LBB58_18:                              # %"records::payload_at.exit.i.i.i.i.i"
	movq	56(%rsp), %r15                  # 8-byte Reload
	movq	%rax, 72(%rsp)                  # 8-byte Spill
	leaq	(%rax,%rbx), %rcx
	movq	%rcx, 112(%rsp)                 # 8-byte Spill
	cmpq	$4, 48(%rsp)                    # 8-byte Folded Reload
	sete	%al
	movq	%rax, 64(%rsp)                  # 8-byte Spill
	addq	%rbp, %r13
	leaq	560(%rsp), %rcx
	movq	%rcx, 8(%rsp)
	movq	%r14, (%rsp)
	leaq	4232(%rsp), %rdi
	movq	%rbp, %rsi
	movq	32(%rsp), %rdx                  # 8-byte Reload
	leaq	416(%rsp), %rcx
	movq	%r15, %r8
	movq	%r13, %r9
	callq	"stock::core_at"
	leaq	560(%rsp), %rax
	movq	%rax, 8(%rsp)
	movq	%r14, (%rsp)
	leaq	4568(%rsp), %r14
	movq	%r14, %rdi
	movq	%rbp, %rsi
	movq	32(%rsp), %rdx                  # 8-byte Reload
	leaq	416(%rsp), %rcx
	movq	%r15, %r8
	movq	%r13, %r9
	callq	"stock::all_arms"
	leaq	640(%rsp), %rdi
	movl	$3584, %edx                     # imm = 0xE00
	movq	%r14, %rsi
	callq	memcpy@PLT
	xorps	%xmm0, %xmm0
	movaps	%xmm0, 368(%rsp)
	movaps	%xmm0, 352(%rsp)
	movaps	%xmm0, 336(%rsp)
	movaps	%xmm0, 320(%rsp)
	movaps	%xmm0, 304(%rsp)
	movaps	%xmm0, 288(%rsp)
	movaps	%xmm0, 272(%rsp)
	movaps	%xmm0, 256(%rsp)
	movq	64(%rsp), %rcx                  # 8-byte Reload
	leal	(,%rcx,4), %eax
	addb	$36, %al
	movl	%eax, 84(%rsp)                  # 4-byte Spill
	addb	$3, %cl
	movq	%rcx, 64(%rsp)                  # 8-byte Spill
	movq	40(%rsp), %rax                  # 8-byte Reload
	addq	$-40, %rax
	movq	%rax, 136(%rsp)                 # 8-byte Spill
	movq	72(%rsp), %rax                  # 8-byte Reload
	addq	%rbx, %rax
	addq	$40, %rax
	movq	%rax, 128(%rsp)                 # 8-byte Spill
	xorl	%r15d, %r15d
	movq	96(%rsp), %r14                  # 8-byte Reload
	.p2align	4
.LBB58_19:                              # %join.8.i.i.i.i.i.i
                                        # =>This Loop Header: Depth=1
                                        #     Child Loop BB58_22 Depth 2
                                        #       Child Loop BB58_28 Depth 3
	leaq	256(%rsp), %rdi
	leaq	4232(%rsp), %rsi
	leaq	640(%rsp), %rdx
	leaq	560(%rsp), %rcx
	movq	144(%rsp), %r8                  # 8-byte Reload
	movq	%r12, %r9
	callq	"library::last::staying_at"
	movq	376(%rsp), %rax
	movq	%rax, 104(%rsp)                 # 8-byte Spill
	testq	%rax, %rax
	je	.LBB58_20
# %bb.21:                               # %join.5.lr.ph.i.i.i.i.i.i.i
                                        #   in Loop: Header=BB58_19 Depth=1
	movq	%r12, 88(%rsp)                  # 8-byte Spill
	movq	256(%rsp), %rax
	movq	%rax, 248(%rsp)                 # 8-byte Spill
	movq	368(%rsp), %rax
	movq	%rax, 240(%rsp)                 # 8-byte Spill
	movq	360(%rsp), %rdx
	movq	352(%rsp), %rsi
	movq	344(%rsp), %rdi
	movq	336(%rsp), %r8
	movq	328(%rsp), %r9
	movq	312(%rsp), %r10
	movq	320(%rsp), %r11
	movq	272(%rsp), %rbx
	movabsq	$1152921504606846975, %rcx      # imm = 0xFFFFFFFFFFFFFFF
	andq	%rcx, %rbx
	movq	%rbx, 184(%rsp)                 # 8-byte Spill
	movq	280(%rsp), %rax
	andq	%rcx, %rax
	movq	%rax, 176(%rsp)                 # 8-byte Spill
	movq	288(%rsp), %rax
	andq	%rcx, %rax
	movq	296(%rsp), %rbx
	andq	%rcx, %rbx
	movq	%rbx, 168(%rsp)                 # 8-byte Spill
	andl	$536870911, %r10d               # imm = 0x1FFFFFFF
	andl	$536870911, %r11d               # imm = 0x1FFFFFFF
	movq	%r11, 192(%rsp)                 # 8-byte Spill
	andl	$536870911, %r9d                # imm = 0x1FFFFFFF
	andl	$536870911, %r8d                # imm = 0x1FFFFFFF
	movq	%r8, 208(%rsp)                  # 8-byte Spill
	andl	$536870911, %edi                # imm = 0x1FFFFFFF
	movq	%rdi, 216(%rsp)                 # 8-byte Spill
	andl	$536870911, %esi                # imm = 0x1FFFFFFF
	addq	%rax, %rsi
	movq	%rsi, 224(%rsp)                 # 8-byte Spill
	andl	$536870911, %edx                # imm = 0x1FFFFFFF
	movq	%r9, 200(%rsp)                  # 8-byte Spill
	addq	%r9, %r10
	movq	%r10, 32(%rsp)                  # 8-byte Spill
	incq	%rdx
	movq	%rdx, 232(%rsp)                 # 8-byte Spill
	xorl	%eax, %eax
	movq	128(%rsp), %rbx                 # 8-byte Reload
	movq	136(%rsp), %rsi                 # 8-byte Reload
	movq	%r15, 160(%rsp)                 # 8-byte Spill
	movq	%r15, %r8
	jmp	.LBB58_22
	.p2align	4
.LBB58_25:                              # %then.4.i.i.i.i.i.i.i.i.i.i
                                        #   in Loop: Header=BB58_22 Depth=2
	movq	112(%rsp), %rcx                 # 8-byte Reload
	movl	%r9d, 40(%rcx,%r8)
.LBB58_29:                              # %"sheets::put_sheet.exit.i.i.i.i.i.i.i"
                                        #   in Loop: Header=BB58_22 Depth=2
	movq	96(%rsp), %r14                  # 8-byte Reload
	addq	%r14, %r8
	movq	56(%rsp), %rax                  # 8-byte Reload
	incq	%rax
	subq	%r14, %rsi
	addq	%r14, %rbx
	cmpq	104(%rsp), %rax                 # 8-byte Folded Reload
	je	.LBB58_30
.LBB58_22:                              # %join.5.i.i.i.i.i.i.i
                                        #   Parent Loop BB58_19 Depth=1
                                        # =>  This Loop Header: Depth=2
                                        #       Child Loop BB58_28 Depth 3
	movq	40(%rsp), %rbp                  # 8-byte Reload
	subq	%r8, %rbp
	cmpq	%r14, %rbp
	jb	.LBB58_31
# %bb.23:                               # %"sheets::put_five.exit.i.i.i.i.i.i.i.i.i"
                                        #   in Loop: Header=BB58_22 Depth=2
	movq	240(%rsp), %rcx                 # 8-byte Reload
	movq	%rax, 56(%rsp)                  # 8-byte Spill
	addq	%rax, %rcx
	imulq	$112, %rcx, %r15
	movq	704(%rsp,%r15), %r14
	movq	712(%rsp,%r15), %r9
	movq	%rsi, 72(%rsp)                  # 8-byte Spill
	movq	720(%rsp,%r15), %rsi
	movq	728(%rsp,%r15), %rcx
	movq	736(%rsp,%r15), %rdi
	movq	656(%rsp,%r15), %r10
	movabsq	$1152921504606846975, %r11      # imm = 0xFFFFFFFFFFFFFFF
	andq	%r11, %r10
	addq	184(%rsp), %r10                 # 8-byte Folded Reload
	movq	672(%rsp,%r15), %r12
	andq	%r11, %r12
	addq	224(%rsp), %r12                 # 8-byte Folded Reload
	andl	$536870911, %r14d               # imm = 0x1FFFFFFF
	andl	$536870911, %r9d                # imm = 0x1FFFFFFF
	andl	$536870911, %esi                # imm = 0x1FFFFFFF
	andl	$536870911, %ecx                # imm = 0x1FFFFFFF
	imulq	216(%rsp), %rcx                 # 8-byte Folded Reload
	andl	$536870911, %edi                # imm = 0x1FFFFFFF
	addq	%r12, %rdi
	addq	%rcx, %rdi
	movq	%rsi, %rcx
	imulq	32(%rsp), %rcx                  # 8-byte Folded Reload
	movq	%rsi, %r12
	addq	%r14, %rsi
	movq	200(%rsp), %r13                 # 8-byte Reload
	imulq	%r13, %r14
	addq	%r10, %r14
	movq	%r9, %r10
	movq	192(%rsp), %rax                 # 8-byte Reload
	imulq	%rax, %r10
	addq	%rcx, %r10
	movq	696(%rsp,%r15), %r11
	andl	$536870911, %r11d               # imm = 0x1FFFFFFF
	addq	%r14, %r10
	leaq	(%r9,%r11), %rcx
	movq	208(%rsp), %r14                 # 8-byte Reload
	imulq	%r14, %rcx
	addq	%r10, %rcx
	movq	664(%rsp,%r15), %r10
	movabsq	$1152921504606846975, %rdx      # imm = 0xFFFFFFFFFFFFFFF
	andq	%rdx, %r10
	addq	176(%rsp), %r10                 # 8-byte Folded Reload
	imulq	%r13, %r11
	addq	%r10, %r11
	imulq	32(%rsp), %r9                   # 8-byte Folded Reload
	imulq	%rax, %r12
	addq	%r9, %r12
	addq	%r11, %r12
	movq	744(%rsp,%r15), %r9
	imulq	%r14, %rsi
	addq	%r12, %rsi
	movq	680(%rsp,%r15), %r10
	movabsq	$1152921504606846975, %rax      # imm = 0xFFFFFFFFFFFFFFF
	andq	%rax, %r10
	andl	$536870911, %r9d                # imm = 0x1FFFFFFF
	movl	640(%rsp,%r15), %r11d
	addl	248(%rsp), %r11d                # 4-byte Folded Reload
	movq	168(%rsp), %rax                 # 8-byte Reload
	cmpq	%r10, %rax
	cmovaq	%rax, %r10
	addq	232(%rsp), %r9                  # 8-byte Folded Reload
	cmpq	%r9, %r10
	cmovaq	%r10, %r9
	movl	84(%rsp), %r10d                 # 4-byte Reload
	movq	112(%rsp), %r14                 # 8-byte Reload
	movb	%r10b, (%r14,%r8)
	movb	$0, 1(%r14,%r8)
	movq	64(%rsp), %r10                  # 8-byte Reload
	movb	%r10b, 2(%r14,%r8)
	movb	$0, 3(%r14,%r8)
	movl	%r11d, 4(%r14,%r8)
	leaq	(%rsi,%rcx), %r10
	movq	%r10, 8(%r14,%r8)
	movq	%rcx, 16(%r14,%r8)
	movq	%rsi, 24(%r14,%r8)
	movq	72(%rsp), %rsi                  # 8-byte Reload
	movq	%rdi, 32(%r14,%r8)
	cmpq	$4, 48(%rsp)                    # 8-byte Folded Reload
	jne	.LBB58_29
# %bb.24:                               # %arm.2.i.i.i.i.i.i.i.i.i
                                        #   in Loop: Header=BB58_22 Depth=2
	cmpq	$44, %rbp
	jae	.LBB58_25
# %bb.26:                               # %join.6.i.i.i.i.i.i.i.i.i.i
                                        #   in Loop: Header=BB58_22 Depth=2
	cmpq	$41, %rbp
	jb	.LBB58_29
# %bb.27:                               # %join.5.i.i.preheader.i.i.i.i.i.i.i.i.i
                                        #   in Loop: Header=BB58_22 Depth=2
	movq	160(%rsp), %rcx                 # 8-byte Reload
	.p2align	4
.LBB58_28:                              # %join.5.i.i.i.i.i.i.i.i.i.i.i
                                        #   Parent Loop BB58_19 Depth=1
                                        #     Parent Loop BB58_22 Depth=2
                                        # =>    This Inner Loop Header: Depth=3
	movb	%r9b, (%rbx,%rcx)
	shrq	$8, %r9
	incq	%rcx
	cmpq	%rcx, %rsi
	jne	.LBB58_28
	jmp	.LBB58_29
	.p2align	4
.LBB58_20:                              #   in Loop: Header=BB58_19 Depth=1
	xorl	%eax, %eax
	jmp	.LBB58_32
	.p2align	4
.LBB58_30:                              #   in Loop: Header=BB58_19 Depth=1
	movq	104(%rsp), %rax                 # 8-byte Reload
.LBB58_31:                              # %"library::last::turn.exit.i.i.i.i.i.i"
                                        #   in Loop: Header=BB58_19 Depth=1
	movq	%r8, %r15
	movq	88(%rsp), %r12                  # 8-byte Reload
.LBB58_32:                              # %"library::last::turn.exit.i.i.i.i.i.i"
                                        #   in Loop: Header=BB58_19 Depth=1
	addq	%rax, %r12
	cmpq	152(%rsp), %r12                 # 8-byte Folded Reload
	jae	.LBB58_34
# %bb.33:                               # %"library::last::turn.exit.i.i.i.i.i.i"
                                        #   in Loop: Header=BB58_19 Depth=1
	movq	40(%rsp), %rax                  # 8-byte Reload
	subq	%r15, %rax
	cmpq	%r14, %rax
	jae	.LBB58_19
.LBB58_34:                              # %arm.6.i.i.i.i
	movq	8208(%rsp), %rax
	movq	120(%rsp), %rcx                 # 8-byte Reload
	movq	%r12, (%rax,%rcx)
	xorl	%eax, %eax
.LBB58_37:                              # %"tteuyomal_c::libraries::tteuyomal_library_run.exit"
	addq	$8152, %rsp                     # imm = 0x1FD8
	popq	%rbx
	popq	%r12
	popq	%r13
	popq	%r14
	popq	%r15
	popq	%rbp
	retq
.Lfunc_end58:
	.size	tteuyomal_library_run, .Lfunc_end58-tteuyomal_library_run
                                        # -- End function
	.section	.text.tteuyomal_library_step,"ax",@progbits
	.globl	tteuyomal_library_step          # -- Begin function tteuyomal_library_step
	.p2align	4
	.type	tteuyomal_library_step,@function
tteuyomal_library_step:                 # @tteuyomal_library_step
# %bb.0:                                # %start
	pushq	%rbp
	pushq	%r15
	pushq	%r14
	pushq	%r13
	pushq	%r12
	pushq	%rbx
	subq	$88, %rsp
	movq	%r8, %rbp
	movq	%rsi, %r8
	movq	144(%rsp), %r15
	xorl	%esi, %esi
	testq	%rdi, %rdi
	sete	%sil
	shll	$12, %esi
	addq	%rdi, %rsi
	xorl	%ebx, %ebx
	testq	%rbp, %rbp
	sete	%r12b
	xorl	%r14d, %r14d
	testq	%r15, %r15
	sete	%r13b
	xorps	%xmm0, %xmm0
	cmpq	$0, 152(%rsp)
	je	.LBB59_1
# %bb.6:                                # %join.3.i.i.i
	movaps	%xmm0, 48(%rsp)
	movaps	%xmm0, 32(%rsp)
	movaps	%xmm0, 16(%rsp)
	movaps	%xmm0, (%rsp)
	xorl	%eax, %eax
	cmpq	$32768, %r8                     # imm = 0x8000
	jbe	.LBB59_9
# %bb.7:
	movl	$20, %ecx
	jmp	.LBB59_8
.LBB59_1:                               # %then.1.i.i.i
	movaps	%xmm0, 48(%rsp)
	movaps	%xmm0, 32(%rsp)
	movaps	%xmm0, 16(%rsp)
	movaps	%xmm0, (%rsp)
	movl	$20, %eax
	cmpq	$32768, %r8                     # imm = 0x8000
	ja	.LBB59_22
# %bb.2:                                # %join.3.i.i.i.i
	xorl	%eax, %eax
	cmpq	$4, %rdx
	sete	%al
	leaq	40(,%rax,4), %rdx
	movl	$9, %eax
	cmpq	%rdx, %r9
	jb	.LBB59_22
# %bb.3:                                # %join.6.i.i.i.i
	movq	%rsp, %rdi
	movq	%r8, %rdx
	callq	"library::product"
	cmpb	$1, (%rsp)
	jne	.LBB59_5
# %bb.4:                                # %arm.7.i.i.i.i
	movzbl	8(%rsp), %ecx
	movq	16(%rsp), %rax
	jmp	.LBB59_8
.LBB59_9:                               # %join.3.i7.i.i.i
	cmpq	$4, %rdx
	sete	%al
	leaq	40(,%rax,4), %rax
	cmpq	%rax, %r9
	jae	.LBB59_11
# %bb.10:
	movl	$9, %ecx
	xorl	%eax, %eax
	jmp	.LBB59_8
.LBB59_11:                              # %join.6.i9.i.i.i
	movq	%rdx, 64(%rsp)                  # 8-byte Spill
	movq	%r9, 80(%rsp)                   # 8-byte Spill
	movq	%rsp, %rdi
	movq	%r8, %rdx
	movq	%rcx, 72(%rsp)                  # 8-byte Spill
	callq	"library::product"
	movzbl	8(%rsp), %ecx
	movq	16(%rsp), %rax
	cmpb	$0, (%rsp)
	je	.LBB59_12
.LBB59_8:                               # %arm.1.i.i.i.i
	shlq	$8, %rax
	orq	%rcx, %rax
.LBB59_22:                              # %"tteuyomal_c::libraries::tteuyomal_library_step.exit"
	addq	$88, %rsp
	popq	%rbx
	popq	%r12
	popq	%r13
	popq	%r14
	popq	%r15
	popq	%rbp
	retq
.LBB59_12:                              # %arm.7.i11.i.i.i
	cmpl	$1, %ecx
	jne	.LBB59_13
# %bb.14:                               # %"sheets::put_five.exit.i.i.i.i.i.i"
	movb	%r12b, %bl
	shll	$12, %ebx
	movb	%r13b, %r14b
	shll	$12, %r14d
	movq	56(%rsp), %rcx
	movq	64(%rsp), %rdx                  # 8-byte Reload
	cmpq	$4, %rdx
	sete	%sil
	leal	(,%rsi,4), %edi
	addb	$36, %dil
	addb	$3, %sil
	movb	%dil, (%rbp,%rbx)
	movb	$0, 1(%rbp,%rbx)
	movb	%sil, 2(%rbp,%rbx)
	movb	$0, 3(%rbp,%rbx)
	movl	%eax, 4(%rbp,%rbx)
	movups	24(%rsp), %xmm0
	movups	%xmm0, 8(%rbp,%rbx)
	movups	40(%rsp), %xmm0
	movups	%xmm0, 24(%rbp,%rbx)
	cmpq	$4, %rdx
	movq	72(%rsp), %rax                  # 8-byte Reload
	movq	80(%rsp), %rdx                  # 8-byte Reload
	jne	.LBB59_21
# %bb.15:                               # %arm.2.i.i.i.i.i.i
	cmpq	$44, %rdx
	jb	.LBB59_17
# %bb.16:                               # %then.4.i.i.i.i.i.i.i
	movl	%ecx, 40(%rbp,%rbx)
	jmp	.LBB59_21
.LBB59_5:                               # %arm.8.i.i.i.i
	cmpb	$0, 8(%rsp)
	movl	$254, %ecx
	movl	$9, %eax
	cmoveq	%rcx, %rax
	jmp	.LBB59_22
.LBB59_13:                              # %arm.2.i.thread.i.i.i
	movl	$254, %eax
	jmp	.LBB59_22
.LBB59_17:                              # %join.6.i.i.i.i.i.i.i
	cmpq	$41, %rdx
	jb	.LBB59_21
# %bb.18:                               # %join.5.i.i.preheader.i.i.i.i.i.i
	decq	%rdx
	movb	%cl, 40(%rbp,%rbx)
	cmpq	$40, %rdx
	je	.LBB59_21
# %bb.19:                               # %join.5.i.i.i.i.i.i.i.i.1
	movb	%ch, 41(%rbp,%rbx)
	cmpq	$41, %rdx
	je	.LBB59_21
# %bb.20:                               # %join.5.i.i.i.i.i.i.i.i.2
	shrl	$16, %ecx
	movb	%cl, 42(%rbp,%rbx)
.LBB59_21:                              # %arm.6.i.i.i.i
	incq	%rax
	movq	%rax, (%r15,%r14)
	xorl	%eax, %eax
	jmp	.LBB59_22
.Lfunc_end59:
	.size	tteuyomal_library_step, .Lfunc_end59-tteuyomal_library_step
                                        # -- End function
	.section	.text.tteuyomal_matched,"ax",@progbits
	.globl	tteuyomal_matched               # -- Begin function tteuyomal_matched
	.p2align	4
	.type	tteuyomal_matched,@function
tteuyomal_matched:                      # @tteuyomal_matched
# %bb.0:                                # %start
	pushq	%rbp
	pushq	%r15
	pushq	%r14
	pushq	%r13
	pushq	%r12
	pushq	%rbx
	movq	%rsp, %r11
	subq	$27648, %r11                    # imm = 0x6C00
.LBB60_1:                               # %start
                                        # =>This Inner Loop Header: Depth=1
	subq	$3072, %rsp                     # imm = 0xC00
	movq	$0, (%rsp)
	cmpq	%r11, %rsp
	jne	.LBB60_1
# %bb.2:                                # %start
	subq	$1624, %rsp                     # imm = 0x658
	movq	%r8, 56(%rsp)                   # 8-byte Spill
	movq	%rcx, %r12
	movq	%rdx, 32(%rsp)                  # 8-byte Spill
	movq	%rsi, %rbx
	xorl	%r13d, %r13d
	testq	%rdi, %rdi
	sete	%r13b
	shll	$12, %r13d
	addq	%rdi, %r13
	testq	%rcx, %rcx
	sete	7(%rsp)                         # 1-byte Folded Spill
	movq	%r9, 24(%rsp)                   # 8-byte Spill
	testq	%r9, %r9
	sete	16(%rsp)                        # 1-byte Folded Spill
	xorps	%xmm0, %xmm0
	movaps	%xmm0, 464(%rsp)
	movaps	%xmm0, 480(%rsp)
	movaps	%xmm0, 496(%rsp)
	movaps	%xmm0, 512(%rsp)
	movaps	%xmm0, 528(%rsp)
	movaps	%xmm0, 544(%rsp)
	movaps	%xmm0, 560(%rsp)
	movaps	%xmm0, 576(%rsp)
	movaps	%xmm0, 592(%rsp)
	movaps	%xmm0, 608(%rsp)
	movaps	%xmm0, 624(%rsp)
	movq	$0, 640(%rsp)
	leaq	4568(%rsp), %rbp
	movl	$8448, %edx                     # imm = 0x2100
	movq	%rbp, %rdi
	xorl	%esi, %esi
	callq	memset@PLT
	leaq	464(%rsp), %rdi
	movl	$8448, %r8d                     # imm = 0x2100
	movq	%r13, %rsi
	movq	%rbx, %rdx
	movq	%rbp, %rcx
	callq	"compose::reading::read_in"
	movzbl	472(%rsp), %r15d
	movq	480(%rsp), %rbp
	leaq	488(%rsp), %rsi
	movzbl	464(%rsp), %r14d
	leaq	304(%rsp), %rdi
	movl	$160, %edx
	callq	memcpy@PLT
	testb	%r14b, %r14b
	jne	.LBB60_6
# %bb.3:                                # %arm.1.i.i.i.i
	movq	%rbx, 8(%rsp)                   # 8-byte Spill
	movq	%r12, 48(%rsp)                  # 8-byte Spill
	movq	29328(%rsp), %rax
	shrq	%rax
	movq	32(%rsp), %r14                  # 8-byte Reload
	cmpq	%r14, %rax
	jae	.LBB60_5
# %bb.4:
	movl	$9, %r15d
	xorl	%ebp, %ebp
	jmp	.LBB60_6
.LBB60_5:                               # %join.7.i.i.i.i
	leaq	4568(%rsp), %rbp
	movl	$24704, %edx                    # imm = 0x6080
	movq	%rbp, %rdi
	xorl	%esi, %esi
	callq	memset@PLT
	leaq	464(%rsp), %rdi
	movl	$4096, %edx                     # imm = 0x1000
	xorl	%esi, %esi
	callq	memset@PLT
	xorps	%xmm0, %xmm0
	movaps	%xmm0, 64(%rsp)
	movq	$0, 80(%rsp)
	leaq	64(%rsp), %rdi
	movl	$12352, %r8d                    # imm = 0x3040
	movq	%r13, %rsi
	movq	8(%rsp), %rdx                   # 8-byte Reload
	movq	%rbp, %rcx
	callq	"whole::bonds"
	movq	72(%rsp), %r15
	movq	80(%rsp), %rbp
	cmpb	$0, 64(%rsp)
	je	.LBB60_8
.LBB60_6:                               # %arm.1.i3.i.i.i
	movzbl	%r15b, %eax
	shlq	$8, %rbp
	orq	%rax, %rbp
	movq	%rbp, %rax
.LBB60_7:                               # %"tteuyomal_c::large::tteuyomal_matched.exit"
	addq	$29272, %rsp                    # imm = 0x7258
	popq	%rbx
	popq	%r12
	popq	%r13
	popq	%r14
	popq	%r15
	popq	%rbp
	retq
.LBB60_8:                               # %arm.1.i.i.i.i.i.i
	cmpq	%r14, %r15
	jne	.LBB60_31
# %bb.9:                                # %join.7.i.i.i.i.i.i
	leaq	144(%rsp), %rdi
	leaq	304(%rsp), %rsi
	movl	$160, %edx
	callq	memcpy@PLT
	testq	%r14, %r14
	je	.LBB60_41
# %bb.10:                               # %join.5.lr.ph.i.i.i.i.i.i.i.i
	xorl	%edi, %edi
	movzbl	16(%rsp), %eax                  # 1-byte Folded Reload
	movb	%al, %dil
	shll	$12, %edi
	movq	144(%rsp), %rax
	movq	%rax, 128(%rsp)                 # 8-byte Spill
	movq	280(%rsp), %rcx
	movq	288(%rsp), %rdx
	leaq	4(%rcx), %rsi
	movq	%rcx, 16(%rsp)                  # 8-byte Spill
	leaq	1(%rcx), %rax
	movq	%rax, 96(%rsp)                  # 8-byte Spill
	movq	8(%rsp), %r12                   # 8-byte Reload
	movq	%r12, %rax
	subq	%rsi, %rax
	movq	%rax, 112(%rsp)                 # 8-byte Spill
	movq	%rsi, 120(%rsp)                 # 8-byte Spill
	cmovbq	%r12, %rsi
	movq	%rsi, 104(%rsp)                 # 8-byte Spill
	movq	24(%rsp), %rax                  # 8-byte Reload
	leaq	(%rdi,%rax), %r8
	addq	$2, %r8
	xorl	%r15d, %r15d
	movq	%rdx, 24(%rsp)                  # 8-byte Spill
	movq	%r8, 40(%rsp)                   # 8-byte Spill
	jmp	.LBB60_12
	.p2align	4
.LBB60_11:                              #   in Loop: Header=BB60_12 Depth=1
	xorl	%eax, %eax
	movw	%ax, 464(%rsp,%r15,2)
	incq	%r15
	cmpq	%r15, %r14
	je	.LBB60_32
.LBB60_12:                              # %join.5.i.i.i.i.i.i.i.i
                                        # =>This Inner Loop Header: Depth=1
	movzwl	-2(%r8,%r15,4), %ebx
	leaq	-1(%rbx), %rax
	cmpq	%rdx, %rax
	jae	.LBB60_11
# %bb.13:                               # %join.3.i.i.i.i.i.i.i.i.i.i
                                        #   in Loop: Header=BB60_12 Depth=1
	cmpq	16(%rsp), %r12                  # 8-byte Folded Reload
	jae	.LBB60_19
# %bb.14:                               #   in Loop: Header=BB60_12 Depth=1
	xorl	%ecx, %ecx
	imull	$43691, %ecx, %esi              # imm = 0xAAAB
	shrl	$18, %esi
	cmpl	%esi, %eax
	ja	.LBB60_25
	jmp	.LBB60_15
.LBB60_19:                              # %join.3.i.i.i.i.i.i.i.i.i.i.i.i.i
                                        #   in Loop: Header=BB60_12 Depth=1
	jbe	.LBB60_23
# %bb.20:                               # %"records::byte_at.exit.i.i.i.i.i.i.i.i.i.i.i.i.i.i"
                                        #   in Loop: Header=BB60_12 Depth=1
	movq	16(%rsp), %rcx                  # 8-byte Reload
	movzbl	(%r13,%rcx), %ecx
	movq	96(%rsp), %rdx                  # 8-byte Reload
	cmpq	%r12, %rdx
	jae	.LBB60_24
# %bb.21:                               # %then.1.i6.i.i.i.i.i.i.i.i.i.i.i.i.i.i
                                        #   in Loop: Header=BB60_12 Depth=1
	movzbl	(%r13,%rdx), %edx
	shll	$8, %edx
	movzwl	%cx, %ecx
	orl	%edx, %ecx
	jmp	.LBB60_24
.LBB60_23:                              #   in Loop: Header=BB60_12 Depth=1
	xorl	%ecx, %ecx
.LBB60_24:                              # %"records::le16_at.exit.i.i.i.i.i.i.i.i.i.i.i.i.i"
                                        #   in Loop: Header=BB60_12 Depth=1
	movzwl	%cx, %edx
	movq	112(%rsp), %rcx                 # 8-byte Reload
	cmpq	%rdx, %rcx
	cmovbq	%rcx, %rdx
	xorl	%ecx, %ecx
	cmpq	120(%rsp), %r12                 # 8-byte Folded Reload
	cmovaeq	%rdx, %rcx
	movq	104(%rsp), %r12                 # 8-byte Reload
	imull	$43691, %ecx, %esi              # imm = 0xAAAB
	shrl	$18, %esi
	cmpl	%esi, %eax
	ja	.LBB60_25
.LBB60_15:                              # %join.3.i1.i.i.i.i.i.i.i.i.i.i.i.i
                                        #   in Loop: Header=BB60_12 Depth=1
	addq	%r13, %r12
	addq	%rax, %rax
	leaq	(%rax,%rax,2), %rsi
	addq	$2, %rsi
	leaq	(%rax,%rax,2), %rdi
	addq	$8, %rdi
	cmpq	%rcx, %rdi
	jbe	.LBB60_22
# %bb.16:                               # %join.6.i.i.i.i.i.i.i.i.i.i.i.i.i
                                        #   in Loop: Header=BB60_12 Depth=1
	cmpq	%rcx, %rsi
	jae	.LBB60_25
# %bb.17:                               # %"records::byte_at.exit.i.i5.i.i.i.i.i.i.i.i.i.i.i.i"
                                        #   in Loop: Header=BB60_12 Depth=1
	leaq	(%rax,%rax,2), %rsi
	movzbl	2(%r12,%rsi), %eax
	addq	$3, %rsi
	cmpq	%rcx, %rsi
	jae	.LBB60_26
# %bb.18:                               # %then.1.i6.i.i11.i.i.i.i.i.i.i.i.i.i.i.i
                                        #   in Loop: Header=BB60_12 Depth=1
	movzbl	(%r12,%rsi), %ecx
	shll	$8, %ecx
	movzwl	%ax, %eax
	orl	%ecx, %eax
	jmp	.LBB60_26
	.p2align	4
.LBB60_25:                              #   in Loop: Header=BB60_12 Depth=1
	xorl	%eax, %eax
	jmp	.LBB60_26
.LBB60_22:                              # %then.4.i.i.i.i.i.i.i.i.i.i.i.i.i
                                        #   in Loop: Header=BB60_12 Depth=1
	movzwl	(%r12,%rsi), %eax
.LBB60_26:                              # %"deck::is_missing.exit.i.i.i.i.i.i.i.i.i"
                                        #   in Loop: Header=BB60_12 Depth=1
	movzwl	(%r8,%r15,4), %r14d
	movzwl	%ax, %ecx
	leaq	136(%rsp), %rdi
	leaq	152(%rsp), %rsi
	movq	128(%rsp), %rdx                 # 8-byte Reload
	callq	"assembly::find_block"
	movzwl	140(%rsp), %eax
	leal	-1(%r14), %ecx
	cmpl	%eax, %ecx
	jae	.LBB60_28
# %bb.27:                               # %join.3.i.i.i.i.i.i.i.i.i
                                        #   in Loop: Header=BB60_12 Depth=1
	decl	%ebx
	leaq	304(%rsp), %rdx
	movq	%r13, %rdi
	movq	8(%rsp), %r12                   # 8-byte Reload
	movq	%r12, %rsi
	movl	%ebx, %ecx
	callq	"whole::start_of"
	addl	%r14d, %eax
	movq	32(%rsp), %r14                  # 8-byte Reload
	jmp	.LBB60_29
.LBB60_28:                              #   in Loop: Header=BB60_12 Depth=1
	xorl	%eax, %eax
	movq	32(%rsp), %r14                  # 8-byte Reload
	movq	8(%rsp), %r12                   # 8-byte Reload
.LBB60_29:                              # %"matched::number_in.exit.i.i.i.i.i.i.i.i"
                                        #   in Loop: Header=BB60_12 Depth=1
	movq	24(%rsp), %rdx                  # 8-byte Reload
	movq	40(%rsp), %r8                   # 8-byte Reload
	movw	%ax, 464(%rsp,%r15,2)
	incq	%r15
	cmpq	%r15, %r14
	jne	.LBB60_12
.LBB60_32:                              # %join.5.preheader.i.i.i.i.i.i.i.i.i
	leaq	1(%r14), %rax
	movl	$1, %ecx
	movq	$-1, %rdx
	movq	56(%rsp), %r12                  # 8-byte Reload
	movzbl	7(%rsp), %r8d                   # 1-byte Folded Reload
	jmp	.LBB60_34
.LBB60_33:                              # %join.8.i.i.i.i.i.i.i.i.i
                                        #   in Loop: Header=BB60_34 Depth=1
	incq	%rdx
	cmpq	%r14, %rcx
	leaq	1(%rcx), %rcx
	je	.LBB60_42
.LBB60_34:                              # %"matched::partner.exit.i.i.i.i.i.i.i.i.i.i"
                                        # =>This Loop Header: Depth=1
                                        #     Child Loop BB60_38 Depth 2
	movzwl	462(%rsp,%rcx,2), %esi
	testw	%si, %si
	je	.LBB60_69
# %bb.35:                               # %else.2.i.i.i.i.i.i.i.i.i.i
                                        #   in Loop: Header=BB60_34 Depth=1
	cmpq	$1, %rcx
	je	.LBB60_33
# %bb.36:                               # %join.5.i.i.i.i.i.i.i.i.i.i.i.preheader
                                        #   in Loop: Header=BB60_34 Depth=1
	movq	%rdx, %rdi
	jmp	.LBB60_38
	.p2align	4
.LBB60_37:                              # %join.8.i.i.i.i.i.i.i.i.i.i.i
                                        #   in Loop: Header=BB60_38 Depth=2
	addq	$-1, %rdi
	jae	.LBB60_33
.LBB60_38:                              # %join.5.i.i.i.i.i.i.i.i.i.i.i
                                        #   Parent Loop BB60_34 Depth=1
                                        # =>  This Inner Loop Header: Depth=2
	cmpq	%r14, %rdi
	jae	.LBB60_37
# %bb.39:                               # %"matched::partner.exit.i.i.i.i.i.i.i.i.i.i.i"
                                        #   in Loop: Header=BB60_38 Depth=2
	cmpw	464(%rsp,%rdi,2), %si
	jne	.LBB60_37
.LBB60_69:
	movq	%rcx, %rax
	jmp	.LBB60_71
.LBB60_31:                              # %arm.2.i2.thread.i.i.i
	xorl	%eax, %eax
.LBB60_71:                              # %"deck_calls::verdict_code.exit.i.i.i.i"
	shlq	$8, %rax
	orq	$255, %rax
	jmp	.LBB60_7
.LBB60_41:                              # %"matched::put_partners.exit.thread.i.i.i.i.i.i.i"
	movl	$1, %eax
	movq	56(%rsp), %r12                  # 8-byte Reload
	movzbl	7(%rsp), %r8d                   # 1-byte Folded Reload
.LBB60_42:                              # %join.3.i.i.i.i.i.i.i.i
	addq	%rbp, %rbp
	cmpq	$2, %r12
	movq	48(%rsp), %rcx                  # 8-byte Reload
	movl	$0, %edx
	jb	.LBB60_54
# %bb.43:                               # %join.5.lr.ph.i.i.i.i.i.i.i.i.i
	testq	%rbp, %rbp
	je	.LBB60_71
# %bb.44:                               # %join.5.us.us.i.i.i.i.i.i.i.i.i.preheader
	movb	%r8b, %dl
	shll	$12, %edx
	movq	%rdx, %r11
	addq	%rdx, %rcx
	xorl	%edx, %edx
.LBB60_45:                              # %join.5.us.us.i.i.i.i.i.i.i.i.i
                                        # =>This Loop Header: Depth=1
                                        #     Child Loop BB60_49 Depth 2
	movzwl	(%rcx,%rdx,2), %esi
	leaq	-1(%rsi), %rdi
	cmpq	%r14, %rdi
	jae	.LBB60_56
# %bb.46:                               # %join.5.us.us.i.i.i.i.i.i.i.i.i
                                        #   in Loop: Header=BB60_45 Depth=1
	movzwl	2(%rcx,%rdx,2), %edi
	leaq	-1(%rdi), %r8
	cmpq	%r14, %r8
	jae	.LBB60_56
# %bb.47:                               # %"matched::partner.exit12.i.i.us.us.i.i.i.i.i.i.i.i.i"
                                        #   in Loop: Header=BB60_45 Depth=1
	movzwl	462(%rsp,%rsi,2), %esi
	movzwl	462(%rsp,%rdi,2), %edi
	xorl	%r8d, %r8d
	jmp	.LBB60_49
.LBB60_48:                              # %loop.2.i.i.i.us.us.i.i.i.i.i.i.i.i.i
                                        #   in Loop: Header=BB60_49 Depth=2
	addq	$2, %r8
	cmpq	%r8, %rbp
	je	.LBB60_56
.LBB60_49:                              # %join.5.i.i.i.us.us.i.i.i.i.i.i.i.i.i
                                        #   Parent Loop BB60_45 Depth=1
                                        # =>  This Inner Loop Header: Depth=2
	movzwl	4568(%rsp,%r8,2), %r10d
	movzwl	4570(%rsp,%r8,2), %r9d
	cmpw	%r10w, %si
	jne	.LBB60_51
# %bb.50:                               # %join.5.i.i.i.us.us.i.i.i.i.i.i.i.i.i
                                        #   in Loop: Header=BB60_49 Depth=2
	cmpw	%r9w, %di
	je	.LBB60_53
.LBB60_51:                              # %"matched::is_between.exit.i.i.i.us.us.i.i.i.i.i.i.i.i.i"
                                        #   in Loop: Header=BB60_49 Depth=2
	cmpw	%r10w, %di
	jne	.LBB60_48
# %bb.52:                               # %"matched::is_between.exit.i.i.i.us.us.i.i.i.i.i.i.i.i.i"
                                        #   in Loop: Header=BB60_49 Depth=2
	cmpw	%r9w, %si
	jne	.LBB60_48
.LBB60_53:                              # %join.8.loopexit.us.us.i.i.i.i.i.i.i.i.i
                                        #   in Loop: Header=BB60_45 Depth=1
	incq	%rax
	addq	$2, %rdx
	movq	%r12, %rsi
	subq	%rdx, %rsi
	cmpq	$1, %rsi
	ja	.LBB60_45
	jmp	.LBB60_57
.LBB60_54:                              # %join.6.thread.i.i.i.i.i.i.i.i
	testq	%rbp, %rbp
	jne	.LBB60_71
.LBB60_55:                              # %arm.2.i2.thread28.i.i.i
	xorl	%eax, %eax
	jmp	.LBB60_7
.LBB60_56:                              # %"matched::first_amiss.exit.i.i.i.i.i.i.i.i"
	testq	%rax, %rax
	jne	.LBB60_71
.LBB60_57:                              # %join.6.i.i.i.i.i.i.i.i
	movq	%r12, %rax
	shrq	%rax
	addq	%r14, %rax
	movq	48(%rsp), %rcx                  # 8-byte Reload
	addq	%r11, %rcx
	addq	$2, %rcx
	xorl	%edx, %edx
.LBB60_58:                              # %join.5.us29.i.i.i.i.i.i.i.i.i
                                        # =>This Loop Header: Depth=1
                                        #     Child Loop BB60_60 Depth 2
	incq	%rax
	movzwl	4568(%rsp,%rdx,2), %esi
	movzwl	4570(%rsp,%rdx,2), %edi
	movq	%rcx, %r8
	movq	%r12, %r9
	jmp	.LBB60_60
.LBB60_59:                              # %loop.2.i.i.us.i.i.i.i.i.i.i.i.i
                                        #   in Loop: Header=BB60_60 Depth=2
	addq	$-2, %r9
	addq	$4, %r8
	cmpq	$1, %r9
	jbe	.LBB60_70
.LBB60_60:                              # %join.5.i.i.us.i.i.i.i.i.i.i.i.i
                                        #   Parent Loop BB60_58 Depth=1
                                        # =>  This Inner Loop Header: Depth=2
	movzwl	-2(%r8), %r10d
	leaq	-1(%r10), %r11
	cmpq	%r14, %r11
	jae	.LBB60_63
# %bb.61:                               # %join.3.i.i8.i.us.i.i.i.i.i.i.i.i.i
                                        #   in Loop: Header=BB60_60 Depth=2
	movzwl	462(%rsp,%r10,2), %r10d
	movzwl	(%r8), %r11d
	leaq	-1(%r11), %rbx
	cmpq	%r14, %rbx
	jb	.LBB60_64
.LBB60_62:                              #   in Loop: Header=BB60_60 Depth=2
	xorl	%r11d, %r11d
	cmpl	%esi, %r10d
	je	.LBB60_65
	jmp	.LBB60_66
.LBB60_63:                              #   in Loop: Header=BB60_60 Depth=2
	xorl	%r10d, %r10d
	movzwl	(%r8), %r11d
	leaq	-1(%r11), %rbx
	cmpq	%r14, %rbx
	jae	.LBB60_62
.LBB60_64:                              # %join.3.i14.i.i.us.i.i.i.i.i.i.i.i.i
                                        #   in Loop: Header=BB60_60 Depth=2
	movzwl	462(%rsp,%r11,2), %r11d
	cmpl	%esi, %r10d
	jne	.LBB60_66
.LBB60_65:                              # %"matched::partner.exit19.i.i.us.i.i.i.i.i.i.i.i.i"
                                        #   in Loop: Header=BB60_60 Depth=2
	cmpl	%edi, %r11d
	je	.LBB60_68
.LBB60_66:                              # %"matched::is_between.exit.i.i.us.i.i.i.i.i.i.i.i.i"
                                        #   in Loop: Header=BB60_60 Depth=2
	cmpl	%edi, %r10d
	jne	.LBB60_59
# %bb.67:                               # %"matched::is_between.exit.i.i.us.i.i.i.i.i.i.i.i.i"
                                        #   in Loop: Header=BB60_60 Depth=2
	cmpl	%esi, %r11d
	jne	.LBB60_59
.LBB60_68:                              # %join.8.loopexit12.us.i.i.i.i.i.i.i.i.i
                                        #   in Loop: Header=BB60_58 Depth=1
	addq	$2, %rdx
	cmpq	%rdx, %rbp
	jne	.LBB60_58
	jmp	.LBB60_55
.LBB60_70:                              # %arm.2.i2.i.i.i
	testq	%rax, %rax
	jne	.LBB60_71
	jmp	.LBB60_55
.Lfunc_end60:
	.size	tteuyomal_matched, .Lfunc_end60-tteuyomal_matched
                                        # -- End function
	.section	.text.tteuyomal_placed_distance,"ax",@progbits
	.globl	tteuyomal_placed_distance       # -- Begin function tteuyomal_placed_distance
	.p2align	4
	.type	tteuyomal_placed_distance,@function
tteuyomal_placed_distance:              # @tteuyomal_placed_distance
# %bb.0:                                # %start
	pushq	%rbp
	pushq	%r15
	pushq	%r14
	pushq	%r13
	pushq	%r12
	pushq	%rbx
	subq	$3072, %rsp                     # imm = 0xC00
	movq	$0, (%rsp)
	subq	$3072, %rsp                     # imm = 0xC00
	movq	$0, (%rsp)
	subq	$2376, %rsp                     # imm = 0x948
	movq	%r9, %rbp
	movq	%r8, 40(%rsp)                   # 8-byte Spill
	movq	%rcx, 32(%rsp)                  # 8-byte Spill
	movq	%rdx, %r15
	movq	%rsi, %r12
	xorl	%r13d, %r13d
	testq	%rdi, %rdi
	sete	%r13b
	shll	$12, %r13d
	addq	%rdi, %r13
	xorl	%r14d, %r14d
	cmpq	$0, 8576(%rsp)
	sete	%r14b
	shll	$12, %r14d
	xorl	%eax, %eax
	xorl	%ecx, %ecx
	jmp	.LBB61_1
	.p2align	4
.LBB61_6:                               #   in Loop: Header=BB61_1 Depth=1
	xorl	%edx, %edx
.LBB61_9:                               # %"records::le16_at.exit21.i.i.i.i.i"
                                        #   in Loop: Header=BB61_1 Depth=1
	addq	$4, %rcx
	movzwl	%dx, %edx
	addq	%rdx, %rcx
	incq	%rax
	cmpq	$16, %rax
	je	.LBB61_10
.LBB61_1:                               # %join.5.i.i.i.i.i
                                        # =>This Inner Loop Header: Depth=1
	leaq	2(%rcx), %rdx
	cmpq	%r12, %rdx
	jae	.LBB61_11
# %bb.2:                                # %"records::byte_at.exit.i.i.i.i.i.i"
                                        #   in Loop: Header=BB61_1 Depth=1
	movzbl	2(%r13,%rcx), %edx
	leaq	3(%rcx), %rsi
	cmpq	%r12, %rsi
	jae	.LBB61_4
# %bb.3:                                # %then.1.i6.i.i.i.i.i.i
                                        #   in Loop: Header=BB61_1 Depth=1
	movzbl	(%r13,%rsi), %esi
	shll	$8, %esi
	movzwl	%dx, %edx
	orl	%esi, %edx
.LBB61_4:                               # %"records::le16_at.exit.i.i.i.i.i"
                                        #   in Loop: Header=BB61_1 Depth=1
	cmpw	$1, %dx
	jne	.LBB61_11
# %bb.5:                                # %join.8.i.i.i.i.i
                                        #   in Loop: Header=BB61_1 Depth=1
	cmpq	%r12, %rcx
	jae	.LBB61_6
# %bb.7:                                # %"records::byte_at.exit.i12.i.i.i.i.i"
                                        #   in Loop: Header=BB61_1 Depth=1
	movzbl	(%r13,%rcx), %edx
	leaq	1(%rcx), %rsi
	cmpq	%r12, %rsi
	jae	.LBB61_9
# %bb.8:                                # %then.1.i6.i18.i.i.i.i.i
                                        #   in Loop: Header=BB61_1 Depth=1
	movzbl	(%r13,%rsi), %esi
	shll	$8, %esi
	movzwl	%dx, %edx
	orl	%esi, %edx
	jmp	.LBB61_9
.LBB61_11:                              # %"deck::heads.exit.i.i.i.i"
	cmpq	$2, %rax
	ja	.LBB61_10
# %bb.12:                               # %then.1.i.i.i.i
	leaq	72(%rsp), %rbx
	movl	$1056, %edx                     # imm = 0x420
	movq	%rbx, %rdi
	xorl	%esi, %esi
	callq	memset@PLT
	movq	%rbx, 8(%rsp)
	movq	%rbp, (%rsp)
	movq	$1056, 16(%rsp)                 # imm = 0x420
	jmp	.LBB61_13
.LBB61_10:                              # %join.3.i.i.i.i
	leaq	72(%rsp), %rbx
	movl	$8448, %edx                     # imm = 0x2100
	movq	%rbx, %rdi
	xorl	%esi, %esi
	callq	memset@PLT
	movq	%rbx, 8(%rsp)
	movq	%rbp, (%rsp)
	movq	$8448, 16(%rsp)                 # imm = 0x2100
.LBB61_13:                              # %"compose::distance::placed_distance.exit.i.i.i"
	leaq	48(%rsp), %rdi
	movq	%r13, %rsi
	movq	%r12, %rdx
	movq	%r15, %rcx
	movq	32(%rsp), %r8                   # 8-byte Reload
	movq	40(%rsp), %r9                   # 8-byte Reload
	callq	"compose::distance::distance_in"
	movzbl	48(%rsp), %edx
	movq	56(%rsp), %rcx
	movq	64(%rsp), %rax
	cmpb	$1, %dl
	jne	.LBB61_15
# %bb.14:                               # %arm.1.i.i.i.i
	movzbl	%cl, %ecx
	shlq	$8, %rax
	orq	%rcx, %rax
	jmp	.LBB61_18
.LBB61_15:                              # %arm.2.i.i.i.i
	cmpq	$0, 8584(%rsp)
	je	.LBB61_16
# %bb.17:                               # %join.5.i.i.i.i.i.i
	movq	8576(%rsp), %rax
	movq	%rcx, (%rax,%r14)
	xorl	%eax, %eax
	jmp	.LBB61_18
.LBB61_16:
	movl	$9, %eax
.LBB61_18:                              # %"tteuyomal_c::decks::tteuyomal_placed_distance.exit"
	addq	$8520, %rsp                     # imm = 0x2148
	popq	%rbx
	popq	%r12
	popq	%r13
	popq	%r14
	popq	%r15
	popq	%rbp
	retq
.Lfunc_end61:
	.size	tteuyomal_placed_distance, .Lfunc_end61-tteuyomal_placed_distance
                                        # -- End function
	.section	.rodata.cst8,"aM",@progbits,8
	.p2align	3, 0x0                          # -- Begin function tteuyomal_polynomial
.LCPI62_0:
	.quad	0x3ff0000000000000              # double 1
	.section	.text.tteuyomal_polynomial,"ax",@progbits
	.globl	tteuyomal_polynomial
	.p2align	4
	.type	tteuyomal_polynomial,@function
tteuyomal_polynomial:                   # @tteuyomal_polynomial
# %bb.0:                                # %start
	pushq	%rbp
	pushq	%r15
	pushq	%r14
	pushq	%r13
	pushq	%r12
	pushq	%rbx
	subq	$2344, %rsp                     # imm = 0x928
	movq	%r8, 184(%rsp)                  # 8-byte Spill
	movq	%rcx, %rbx
	movsd	%xmm0, 152(%rsp)                # 8-byte Spill
	movq	%rdx, %r12
	movq	%rdi, %r15
	xorl	%r13d, %r13d
	testq	%rsi, %rsi
	sete	%r13b
	shll	$12, %r13d
	addq	%rsi, %r13
	xorl	%r14d, %r14d
	testq	%rcx, %rcx
	sete	15(%rsp)                        # 1-byte Folded Spill
	xorpd	%xmm0, %xmm0
	movapd	%xmm0, 160(%rsp)
	movq	$0, 176(%rsp)
	leaq	320(%rsp), %rbp
	movl	$2016, %edx                     # imm = 0x7E0
	movq	%rbp, %rdi
	xorl	%esi, %esi
	callq	memset@PLT
	leaq	160(%rsp), %rdi
	movq	%r15, %rsi
	movq	%r13, %rdx
	movq	%r12, %rcx
	movq	%rbp, %r8
	callq	"block::halved"
	movzbl	160(%rsp), %edx
	testb	%dl, %dl
	je	.LBB62_1
# %bb.16:                               # %"block::pair_counts.exit.i.i.i.i"
	movzbl	168(%rsp), %ecx
	movq	176(%rsp), %rax
	xorpd	%xmm0, %xmm0
	movapd	%xmm0, 16(%rsp)
	movapd	%xmm0, 32(%rsp)
	movapd	%xmm0, 48(%rsp)
	movapd	%xmm0, 64(%rsp)
	movapd	%xmm0, 80(%rsp)
	movapd	%xmm0, 96(%rsp)
	movapd	%xmm0, 112(%rsp)
	movapd	%xmm0, 128(%rsp)
	cmpb	$1, %dl
	movsd	152(%rsp), %xmm5                # 8-byte Reload
                                        # xmm5 = mem[0],zero
	jne	.LBB62_17
	jmp	.LBB62_25
.LBB62_1:                               # %join.4.i.i.i.i.i
	xorpd	%xmm0, %xmm0
	movapd	%xmm0, 128(%rsp)
	movapd	%xmm0, 112(%rsp)
	movapd	%xmm0, 96(%rsp)
	movapd	%xmm0, 80(%rsp)
	movapd	%xmm0, 64(%rsp)
	movapd	%xmm0, 48(%rsp)
	movapd	%xmm0, 32(%rsp)
	movapd	%xmm0, 16(%rsp)
	cmpq	$64, %r15
	movl	$64, %eax
	cmovbq	%r15, %rax
	testq	%r15, %r15
	movsd	152(%rsp), %xmm5                # 8-byte Reload
                                        # xmm5 = mem[0],zero
	je	.LBB62_17
# %bb.2:                                # %join.7.i.i.i.i.i.i.preheader
	leaq	-2(%rax), %rcx
	leaq	321(%rsp), %rdx
	leaq	-1(%rax), %rsi
	movl	$63, %edi
	xorl	%r9d, %r9d
	xorl	%r8d, %r8d
	jmp	.LBB62_3
	.p2align	4
.LBB62_15:                              # %"block::totals::count_run.exit.i.i.i.i.i.i"
                                        #   in Loop: Header=BB62_3 Depth=1
	movaps	304(%rsp), %xmm0
	movaps	%xmm0, 128(%rsp)
	movaps	288(%rsp), %xmm0
	movaps	%xmm0, 112(%rsp)
	movaps	272(%rsp), %xmm0
	movaps	%xmm0, 96(%rsp)
	movaps	256(%rsp), %xmm0
	movaps	%xmm0, 80(%rsp)
	movapd	192(%rsp), %xmm0
	movaps	208(%rsp), %xmm1
	movapd	224(%rsp), %xmm2
	movaps	240(%rsp), %xmm3
	movaps	%xmm3, 64(%rsp)
	movapd	%xmm2, 48(%rsp)
	movaps	%xmm1, 32(%rsp)
	movapd	%xmm0, 16(%rsp)
	subq	%r10, %r8
	addq	$63, %r8
	addq	%rdi, %rdx
	decq	%rdi
	decq	%rsi
	cmpq	%rax, %r9
	je	.LBB62_17
.LBB62_3:                               # %join.7.i.i.i.i.i.i
                                        # =>This Loop Header: Depth=1
                                        #     Child Loop BB62_7 Depth 2
	movq	%r9, %r10
	incq	%r9
	movaps	128(%rsp), %xmm0
	movaps	%xmm0, 304(%rsp)
	movaps	112(%rsp), %xmm0
	movaps	%xmm0, 288(%rsp)
	movaps	96(%rsp), %xmm0
	movaps	%xmm0, 272(%rsp)
	movaps	80(%rsp), %xmm0
	movaps	%xmm0, 256(%rsp)
	movapd	16(%rsp), %xmm0
	movaps	32(%rsp), %xmm1
	movapd	48(%rsp), %xmm2
	movaps	64(%rsp), %xmm3
	movaps	%xmm3, 240(%rsp)
	movapd	%xmm2, 224(%rsp)
	movaps	%xmm1, 208(%rsp)
	movapd	%xmm0, 192(%rsp)
	cmpq	%r9, %rax
	je	.LBB62_15
# %bb.4:                                # %join.5.lr.ph.i.i.i.i.i.i.i
                                        #   in Loop: Header=BB62_3 Depth=1
	cmpq	%r10, %rcx
	jne	.LBB62_6
# %bb.5:                                #   in Loop: Header=BB62_3 Depth=1
	xorl	%r11d, %r11d
	jmp	.LBB62_13
	.p2align	4
.LBB62_6:                               # %join.5.lr.ph.i.i.i.i.i.i.i.new
                                        #   in Loop: Header=BB62_3 Depth=1
	movq	%rsi, %r12
	andq	$-2, %r12
	movq	%r10, %r15
	notq	%r15
	addq	%rax, %r15
	xorl	%r11d, %r11d
	jmp	.LBB62_7
	.p2align	4
.LBB62_11:                              # %join.8.i.i.i.i.i.i.i.1
                                        #   in Loop: Header=BB62_7 Depth=2
	addq	$2, %r11
	cmpq	%r11, %r12
	je	.LBB62_12
.LBB62_7:                               # %join.5.i.i.i.i.i.i.i
                                        #   Parent Loop BB62_3 Depth=1
                                        # =>  This Inner Loop Header: Depth=2
	movzbl	-1(%rdx,%r11), %r13d
	cmpq	$63, %r13
	jbe	.LBB62_8
# %bb.9:                                # %join.8.i.i.i.i.i.i.i
                                        #   in Loop: Header=BB62_7 Depth=2
	movzbl	(%rdx,%r11), %r13d
	cmpq	$63, %r13
	ja	.LBB62_11
	jmp	.LBB62_10
	.p2align	4
.LBB62_8:                               # %then.6.i.i.i.i.i.i.i
                                        #   in Loop: Header=BB62_7 Depth=2
	incw	192(%rsp,%r13,2)
	movzbl	(%rdx,%r11), %r13d
	cmpq	$63, %r13
	ja	.LBB62_11
.LBB62_10:                              # %then.6.i.i.i.i.i.i.i.1
                                        #   in Loop: Header=BB62_7 Depth=2
	incw	192(%rsp,%r13,2)
	jmp	.LBB62_11
	.p2align	4
.LBB62_12:                              # %"block::totals::count_run.exit.i.i.i.i.i.i.loopexit.unr-lcssa"
                                        #   in Loop: Header=BB62_3 Depth=1
	testb	$1, %r15b
	je	.LBB62_15
.LBB62_13:                              # %join.5.i.i.i.i.i.i.i.epil.preheader
                                        #   in Loop: Header=BB62_3 Depth=1
	leaq	(%rsp,%r8), %r15
	addq	$320, %r15                      # imm = 0x140
	movzbl	(%r15,%r11), %r11d
	cmpq	$63, %r11
	ja	.LBB62_15
# %bb.14:                               # %then.6.i.i.i.i.i.i.i.epil
                                        #   in Loop: Header=BB62_3 Depth=1
	incw	192(%rsp,%r11,2)
	jmp	.LBB62_15
.LBB62_17:                              # %arm.2.i.i.i.i
	xorps	%xmm1, %xmm1
	#ARITH_FENCE
	movapd	%xmm5, %xmm0
	#ARITH_FENCE
	xorl	%eax, %eax
	ucomisd	%xmm1, %xmm0
	movl	$10, %ecx
	jbe	.LBB62_25
# %bb.18:                               # %arm.2.i.i.i.i
	movsd	.LCPI62_0(%rip), %xmm1          # xmm1 = [1.0E+0,0.0E+0]
	#ARITH_FENCE
	ucomisd	%xmm0, %xmm1
	jb	.LBB62_25
# %bb.19:                               # %then.4.i.i.i.i.i
	movzbl	15(%rsp), %eax                  # 1-byte Folded Reload
	movb	%al, %r14b
	shll	$12, %r14d
	movaps	128(%rsp), %xmm0
	movaps	%xmm0, 432(%rsp)
	movaps	112(%rsp), %xmm0
	movaps	%xmm0, 416(%rsp)
	movaps	96(%rsp), %xmm0
	movaps	%xmm0, 400(%rsp)
	movaps	80(%rsp), %xmm0
	movaps	%xmm0, 384(%rsp)
	movapd	16(%rsp), %xmm0
	movapd	32(%rsp), %xmm1
	movapd	48(%rsp), %xmm2
	movaps	64(%rsp), %xmm3
	movaps	%xmm3, 368(%rsp)
	movapd	%xmm2, 352(%rsp)
	movapd	%xmm1, 336(%rsp)
	movapd	%xmm0, 320(%rsp)
	xorpd	%xmm1, %xmm1
	movl	$62, %eax
	xorpd	%xmm0, %xmm0
	addsd	%xmm1, %xmm0
	mulsd	%xmm5, %xmm0
	testq	%rax, %rax
	je	.LBB62_22
	.p2align	4
.LBB62_21:                              # %then.6.i.i.i.i.i.i.1
                                        # =>This Inner Loop Header: Depth=1
	movzwl	320(%rsp,%rax,2), %ecx
	xorps	%xmm2, %xmm2
	cvtsi2sd	%ecx, %xmm2
	#ARITH_FENCE
	addsd	%xmm2, %xmm0
	mulsd	%xmm5, %xmm0
	addq	$-2, %rax
	addsd	%xmm1, %xmm0
	mulsd	%xmm5, %xmm0
	testq	%rax, %rax
	jne	.LBB62_21
.LBB62_22:                              # %"poly::value_of.exit.i.i.i.i.i"
	movaps	128(%rsp), %xmm1
	movaps	%xmm1, 432(%rsp)
	movaps	112(%rsp), %xmm1
	movaps	%xmm1, 416(%rsp)
	movaps	96(%rsp), %xmm1
	movaps	%xmm1, 400(%rsp)
	movaps	80(%rsp), %xmm1
	movaps	%xmm1, 384(%rsp)
	movapd	16(%rsp), %xmm1
	movapd	32(%rsp), %xmm2
	movaps	48(%rsp), %xmm3
	movaps	64(%rsp), %xmm4
	movaps	%xmm4, 368(%rsp)
	movaps	%xmm3, 352(%rsp)
	movapd	%xmm2, 336(%rsp)
	movapd	%xmm1, 320(%rsp)
	movl	$63, %eax
	xorpd	%xmm2, %xmm2
	.p2align	4
.LBB62_23:                              # %join.5.i6.i.i.i.i.i
                                        # =>This Inner Loop Header: Depth=1
	movzwl	320(%rsp,%rax,2), %ecx
	xorps	%xmm1, %xmm1
	cvtsi2sd	%ecx, %xmm1
	#ARITH_FENCE
	addsd	%xmm2, %xmm1
	mulsd	%xmm5, %xmm1
	cmpq	$1, %rax
	je	.LBB62_26
# %bb.24:                               # %join.8.i11.i.i.i.i.i.1
                                        #   in Loop: Header=BB62_23 Depth=1
	xorpd	%xmm2, %xmm2
	addsd	%xmm2, %xmm1
	mulsd	%xmm5, %xmm1
	addq	$-2, %rax
	movapd	%xmm1, %xmm2
	jmp	.LBB62_23
.LBB62_25:                              # %arm.1.i.i.i
	shlq	$8, %rax
	orq	%rcx, %rax
	jmp	.LBB62_28
.LBB62_26:                              # %arm.2.i.i.i
	movl	$9, %eax
	cmpq	$2, 184(%rsp)                   # 8-byte Folded Reload
	jb	.LBB62_28
# %bb.27:                               # %join.3.i.i.i.i
	movsd	%xmm0, (%rbx,%r14)
	movsd	%xmm1, 8(%rbx,%r14)
	xorl	%eax, %eax
.LBB62_28:                              # %"tteuyomal_c::blocks::tteuyomal_polynomial.exit"
	addq	$2344, %rsp                     # imm = 0x928
	popq	%rbx
	popq	%r12
	popq	%r13
	popq	%r14
	popq	%r15
	popq	%rbp
	retq
.Lfunc_end62:
	.size	tteuyomal_polynomial, .Lfunc_end62-tteuyomal_polynomial
                                        # -- End function
	.section	.text.tteuyomal_queue_add,"ax",@progbits
	.globl	tteuyomal_queue_add             # -- Begin function tteuyomal_queue_add
	.p2align	4
	.type	tteuyomal_queue_add,@function
tteuyomal_queue_add:                    # @tteuyomal_queue_add
# %bb.0:                                # %start
	pushq	%rbp
	pushq	%r15
	pushq	%r14
	pushq	%r13
	pushq	%r12
	pushq	%rbx
	subq	$600, %rsp                      # imm = 0x258
	movq	%r8, %rbx
	xorl	%eax, %eax
	testq	%r9, %r9
	sete	%r8b
	cmpq	$8448, %rsi                     # imm = 0x2100
	jae	.LBB63_2
# %bb.1:
	movl	$9, %r15d
	xorl	%eax, %eax
	jmp	.LBB63_48
.LBB63_2:                               # %join.3.i.i.i.i
	movq	%r9, %r14
	movb	%r8b, %al
	shll	$12, %eax
	xorl	%r13d, %r13d
	testq	%rdi, %rdi
	sete	%r13b
	shll	$12, %r13d
	testq	%rdx, %rdx
	movl	$4224, %ebp                     # imm = 0x1080
	cmoveq	%rdx, %rbp
	leaq	(%rdi,%r13), %r12
	movzwl	(%rbp,%r12), %edx
	addq	%rbp, %r12
	testw	%dx, %dx
	je	.LBB63_3
# %bb.4:                                # %join.8.i.i.i.i.i.i
	cmpw	$0, 528(%r12)
	je	.LBB63_5
# %bb.6:                                # %join.8.1.i.i.i.i.i.i
	cmpw	$0, 1056(%r12)
	je	.LBB63_7
# %bb.8:                                # %join.8.2.i.i.i.i.i.i
	cmpw	$0, 1584(%r12)
	je	.LBB63_9
# %bb.10:                               # %join.8.3.i.i.i.i.i.i
	cmpw	$0, 2112(%r12)
	je	.LBB63_11
# %bb.12:                               # %join.8.4.i.i.i.i.i.i
	cmpw	$0, 2640(%r12)
	je	.LBB63_13
# %bb.14:                               # %join.8.5.i.i.i.i.i.i
	cmpw	$0, 3168(%r12)
	je	.LBB63_15
# %bb.16:                               # %join.8.6.i.i.i.i.i.i
	cmpw	$1, 3696(%r12)
	movl	$8, %esi
	sbbq	$0, %rsi
	jmp	.LBB63_17
.LBB63_3:
	xorl	%esi, %esi
	jmp	.LBB63_17
.LBB63_5:
	movl	$1, %esi
	jmp	.LBB63_17
.LBB63_7:
	movl	$2, %esi
	jmp	.LBB63_17
.LBB63_9:
	movl	$3, %esi
	jmp	.LBB63_17
.LBB63_11:
	movl	$4, %esi
	jmp	.LBB63_17
.LBB63_13:
	movl	$5, %esi
	jmp	.LBB63_17
.LBB63_15:
	movl	$6, %esi
.LBB63_17:                              # %"queues::places::place_of.exit.i.i.i.i.i"
	addq	%rax, %r14
	testw	%cx, %cx
	je	.LBB63_18
# %bb.19:                               # %join.3.i.i.i.i.i.i
	movl	$29, %r15d
	cmpw	%cx, %dx
	je	.LBB63_28
# %bb.20:                               # %join.8.i.i.i.i.i.i.i
	cmpw	%cx, 528(%r12)
	je	.LBB63_28
# %bb.21:                               # %join.8.1.i.i.i.i.i.i.i
	cmpw	%cx, 1056(%r12)
	je	.LBB63_28
# %bb.22:                               # %join.8.2.i.i.i.i.i.i.i
	cmpw	%cx, 1584(%r12)
	je	.LBB63_28
# %bb.23:                               # %join.8.3.i.i.i.i.i.i.i
	cmpw	%cx, 2112(%r12)
	je	.LBB63_28
# %bb.24:                               # %join.8.4.i.i.i.i.i.i.i
	cmpw	%cx, 2640(%r12)
	je	.LBB63_28
# %bb.25:                               # %join.8.5.i.i.i.i.i.i.i
	cmpw	%cx, 3168(%r12)
	je	.LBB63_28
# %bb.26:                               # %join.8.6.i.i.i.i.i.i.i
	cmpw	%cx, 3696(%r12)
	je	.LBB63_28
# %bb.27:                               # %join.6.i.i.i.i.i.i
	movl	$28, %r15d
	cmpq	$8, %rsi
	jae	.LBB63_28
# %bb.31:                               # %arm.2.i.i.i.i.i
	movq	%rsi, 16(%rsp)                  # 8-byte Spill
	movl	%ecx, 12(%rsp)                  # 4-byte Spill
	movq	%rdi, 24(%rsp)                  # 8-byte Spill
	pxor	%xmm0, %xmm0
	movdqa	%xmm0, 64(%rsp)
	movdqa	%xmm0, 48(%rsp)
	movdqa	%xmm0, 32(%rsp)
	movq	$0, 80(%rsp)
	leaq	32(%rsp), %rdi
	leaq	88(%rsp), %r8
	movq	%rbx, %rsi
	movq	%r14, %rdx
	movq	656(%rsp), %rcx
	callq	"reach::opened"
	cmpb	$0, 32(%rsp)
	movzbl	40(%rsp), %r15d
	je	.LBB63_32
# %bb.47:                               # %"queues::add.exit.i.i.i"
	movq	48(%rsp), %rax
	jmp	.LBB63_48
.LBB63_18:
	movl	$14, %r15d
.LBB63_28:                              # %arm.1.i.i.i.i.i
	leaq	88(%rsp), %r13
	movl	$512, %edx                      # imm = 0x200
	movq	%r13, %rdi
	xorl	%esi, %esi
	callq	memset@PLT
	movq	%rbx, %rdi
	movq	%r14, %rsi
	movq	656(%rsp), %r12
	movq	%r12, %rdx
	movq	%r13, %rcx
	callq	"block::admit"
	testb	%al, %al
	je	.LBB63_30
# %bb.29:                               # %arm.1.i.i.i.i.i.i
	xorl	%eax, %eax
	jmp	.LBB63_48
.LBB63_30:                              # %arm.2.i.i.i.i.i.i
	movq	%rbx, %rdi
	movq	%r14, %rsi
	movq	%r12, %rdx
	callq	"block::refusal"
	movq	%rax, %r15
	movq	%rdx, %rax
.LBB63_48:                              # %arm.2.i.i.i.i
	movzbl	%r15b, %ecx
	shlq	$8, %rax
	orq	%rcx, %rax
.LBB63_49:                              # %"tteuyomal_c::two_queues::tteuyomal_queue_add.exit"
	addq	$600, %rsp                      # imm = 0x258
	popq	%rbx
	popq	%r12
	popq	%r13
	popq	%r14
	popq	%r15
	popq	%rbp
	retq
.LBB63_32:                              # %arm.3.i.i.i.i.i.i.i
	imulq	$528, 16(%rsp), %rax            # 8-byte Folded Reload
                                        # imm = 0x210
	movl	72(%rsp), %edx
	movzbl	80(%rsp), %esi
	movl	12(%rsp), %ecx                  # 4-byte Reload
	movw	%cx, (%r12,%rax)
	movb	%r15b, 2(%r12,%rax)
	movb	%sil, 3(%r12,%rax)
	movdqu	56(%rsp), %xmm0
	pshufd	$232, %xmm0, %xmm0              # xmm0 = xmm0[0,2,2,3]
	movq	%xmm0, 4(%r12,%rax)
	movl	%edx, 12(%r12,%rax)
	testq	%rbx, %rbx
	movq	24(%rsp), %rsi                  # 8-byte Reload
	je	.LBB63_46
# %bb.33:                               # %join.5.i.i.i.i.i.i.i.i.preheader
	addq	%rbp, %r13
	addq	%rax, %rsi
	addq	%r13, %rsi
	movl	$511, %ecx                      # imm = 0x1FF
	movl	$23, %edx
	jmp	.LBB63_34
.LBB63_35:                              # %then.1.i.i.i.i.i.i.i.i.i
                                        #   in Loop: Header=BB63_34 Depth=1
	movq	%rax, -7(%rsi,%rdx)
.LBB63_45:                              # %"records::little::put_little.exit.i.i.i.i.i.i.i.i"
                                        #   in Loop: Header=BB63_34 Depth=1
	addq	$-8, %rcx
	addq	$8, %rdx
	decq	%rbx
	je	.LBB63_46
.LBB63_34:                              # %join.5.i.i.i.i.i.i.i.i
                                        # =>This Inner Loop Header: Depth=1
	cmpq	$7, %rcx
	movl	$7, %edi
	cmovbq	%rcx, %rdi
	leaq	-7(%rdx), %r8
	movq	65(%rsp,%rdx), %rax
	cmpq	$520, %r8                       # imm = 0x208
	jbe	.LBB63_35
# %bb.36:                               # %join.6.i.i.i.i.i.i.i.i.i
                                        #   in Loop: Header=BB63_34 Depth=1
	cmpq	$527, %r8                       # imm = 0x20F
	ja	.LBB63_45
# %bb.37:                               # %join.5.i.i.i.i.i.i.i.i.i.i
                                        #   in Loop: Header=BB63_34 Depth=1
	addq	%rdx, %rdi
	addq	$-6, %rdi
	movb	%al, -7(%rsi,%rdx)
	leaq	-6(%rdx), %r8
	cmpq	%rdi, %r8
	je	.LBB63_45
# %bb.38:                               # %join.5.i.i.i.i.i.i.i.i.i.i.1
                                        #   in Loop: Header=BB63_34 Depth=1
	movb	%ah, -6(%rsi,%rdx)
	leaq	-5(%rdx), %r8
	cmpq	%rdi, %r8
	je	.LBB63_45
# %bb.39:                               # %join.5.i.i.i.i.i.i.i.i.i.i.2
                                        #   in Loop: Header=BB63_34 Depth=1
	movl	%eax, %r8d
	shrl	$16, %r8d
	movb	%r8b, -5(%rsi,%rdx)
	leaq	-4(%rdx), %r8
	cmpq	%rdi, %r8
	je	.LBB63_45
# %bb.40:                               # %join.5.i.i.i.i.i.i.i.i.i.i.3
                                        #   in Loop: Header=BB63_34 Depth=1
	movl	%eax, %r8d
	shrl	$24, %r8d
	movb	%r8b, -4(%rsi,%rdx)
	leaq	-3(%rdx), %r8
	cmpq	%rdi, %r8
	je	.LBB63_45
# %bb.41:                               # %join.5.i.i.i.i.i.i.i.i.i.i.4
                                        #   in Loop: Header=BB63_34 Depth=1
	movq	%rax, %r8
	shrq	$32, %r8
	movb	%r8b, -3(%rsi,%rdx)
	leaq	-2(%rdx), %r8
	cmpq	%rdi, %r8
	je	.LBB63_45
# %bb.42:                               # %join.5.i.i.i.i.i.i.i.i.i.i.5
                                        #   in Loop: Header=BB63_34 Depth=1
	movq	%rax, %r8
	shrq	$40, %r8
	movb	%r8b, -2(%rsi,%rdx)
	leaq	-1(%rdx), %r8
	cmpq	%rdi, %r8
	je	.LBB63_45
# %bb.43:                               # %join.5.i.i.i.i.i.i.i.i.i.i.6
                                        #   in Loop: Header=BB63_34 Depth=1
	movq	%rax, %r8
	shrq	$48, %r8
	movb	%r8b, -1(%rsi,%rdx)
	cmpq	%rdi, %rdx
	je	.LBB63_45
# %bb.44:                               # %join.5.i.i.i.i.i.i.i.i.i.i.7
                                        #   in Loop: Header=BB63_34 Depth=1
	shrq	$56, %rax
	movb	%al, (%rsi,%rdx)
	jmp	.LBB63_45
.LBB63_46:                              # %"queues::add.exit.thread8.i.i.i"
	xorl	%eax, %eax
	jmp	.LBB63_49
.Lfunc_end63:
	.size	tteuyomal_queue_add, .Lfunc_end63-tteuyomal_queue_add
                                        # -- End function
	.section	.text.tteuyomal_queue_compose,"ax",@progbits
	.globl	tteuyomal_queue_compose         # -- Begin function tteuyomal_queue_compose
	.p2align	4
	.type	tteuyomal_queue_compose,@function
tteuyomal_queue_compose:                # @tteuyomal_queue_compose
# %bb.0:                                # %start
	pushq	%rbp
	pushq	%r15
	pushq	%r14
	pushq	%r13
	pushq	%r12
	pushq	%rbx
	subq	$168, %rsp
	xorl	%r13d, %r13d
	testq	%rdi, %rdi
	sete	%bl
	xorl	%eax, %eax
	testq	%r8, %r8
	sete	%r10b
	xorl	%ebp, %ebp
	cmpq	$0, 224(%rsp)
	sete	%r15b
	cmpq	$8448, %rsi                     # imm = 0x2100
	jae	.LBB64_2
# %bb.1:
	movl	$9, %esi
	xorl	%eax, %eax
	jmp	.LBB64_6
.LBB64_2:                               # %join.3.i.i.i.i
	movq	232(%rsp), %r14
	xorl	%esi, %esi
	cmpq	$4, %rcx
	sete	%sil
	leaq	40(,%rsi,4), %r12
	xorl	%esi, %esi
	cmpq	%r12, %r14
	setb	%sil
	cmpq	$32769, %r9                     # imm = 0x8001
	leaq	(%rsi,%rsi,8), %r11
	movl	$20, %esi
	cmovbq	%r11, %rsi
	testq	%rsi, %rsi
	je	.LBB64_4
# %bb.3:
	xorl	%eax, %eax
	jmp	.LBB64_6
.LBB64_4:                               # %join.6.i.i.i.i
	movq	%rdx, 104(%rsp)                 # 8-byte Spill
	movq	%rdi, 96(%rsp)                  # 8-byte Spill
	movq	%rcx, 16(%rsp)                  # 8-byte Spill
	movb	%r10b, %al
	shll	$12, %eax
	addq	%rax, %r8
	xorps	%xmm0, %xmm0
	movaps	%xmm0, 64(%rsp)
	movq	$0, 80(%rsp)
	movw	$0, 56(%rsp)
	movw	$0, 40(%rsp)
	movabsq	$1688849860395010, %rax         # imm = 0x6000000020002
	movq	%rax, 48(%rsp)
	movq	%rax, 32(%rsp)
	leaq	64(%rsp), %rdi
	leaq	48(%rsp), %rax
	leaq	32(%rsp), %r10
	movq	%r8, 8(%rsp)                    # 8-byte Spill
	movq	%r8, %rsi
	movq	%r9, 24(%rsp)                   # 8-byte Spill
	movq	%r9, %rdx
	xorl	%ecx, %ecx
	movq	%rax, %r8
	movq	%r10, %r9
	callq	"records::record_at"
	cmpb	$0, 64(%rsp)
	je	.LBB64_8
# %bb.5:                                # %"gathered::composed.exit.thread.i.i.i.i"
	movzbl	72(%rsp), %esi
	movq	80(%rsp), %rax
.LBB64_6:                               # %arm.1.i.i.i.i
	movzbl	%sil, %ecx
	shlq	$8, %rax
	orq	%rcx, %rax
.LBB64_7:                               # %"tteuyomal_c::two_queues::tteuyomal_queue_compose.exit"
	addq	$168, %rsp
	popq	%rbx
	popq	%r12
	popq	%r13
	popq	%r14
	popq	%r15
	popq	%rbp
	retq
.LBB64_8:                               # %arm.1.i.i.i.i.i
	movb	%bl, %r13b
	shll	$12, %r13d
	movq	96(%rsp), %rsi                  # 8-byte Reload
	addq	%r13, %rsi
	movq	24(%rsp), %rdx                  # 8-byte Reload
	testq	%rdx, %rdx
	movq	104(%rsp), %rax                 # 8-byte Reload
	je	.LBB64_11
# %bb.9:                                # %"records::byte_at.exit.i.i.i.i.i.i.i.i.i"
	movq	8(%rsp), %rdi                   # 8-byte Reload
	movzbl	(%rdi), %r8d
	cmpq	$1, %rdx
	je	.LBB64_12
# %bb.10:                               # %then.1.i6.i.i.i.i.i.i.i.i.i
	movzbl	1(%rdi), %ecx
	shll	$8, %ecx
	movzwl	%r8w, %r8d
	orl	%ecx, %r8d
	jmp	.LBB64_12
.LBB64_11:
	xorl	%r8d, %r8d
	movq	8(%rsp), %rdi                   # 8-byte Reload
.LBB64_12:                              # %"records::payload_at.exit.i.i.i.i.i.i.i"
	movq	%rdx, %r9
	subq	$4, %r9
	movl	$4, %ecx
	cmovbq	%rdx, %rcx
	movzwl	%r8w, %r8d
	cmpq	%r8, %r9
	cmovaeq	%r8, %r9
	xorl	%r8d, %r8d
	cmpq	$4, %rdx
	cmovaeq	%r9, %r8
	addq	%rdi, %rcx
	testq	%rax, %rax
	xorps	%xmm0, %xmm0
	movaps	%xmm0, 144(%rsp)
	movaps	%xmm0, 128(%rsp)
	movaps	%xmm0, 112(%rsp)
	movq	$0, 160(%rsp)
	movl	$4224, %edx                     # imm = 0x1080
	cmoveq	%rax, %rdx
	addq	%rdx, %rsi
	leaq	112(%rsp), %rdi
	movl	$4224, %edx                     # imm = 0x1080
	callq	"summaries::compose"
	movzbl	112(%rsp), %edx
	movq	120(%rsp), %rcx
	testl	%edx, %edx
	je	.LBB64_15
# %bb.13:                               # %"records::payload_at.exit.i.i.i.i.i.i.i"
	movq	128(%rsp), %rax
	cmpl	$1, %edx
	jne	.LBB64_18
# %bb.14:                               # %"core::result::ResultTry::branch::<14'block::Indices,14'reply::Refusal>.exit.i.i.i.i.i.i"
	addq	%rax, %rax
	leaq	(%rax,%rax,2), %rax
	movq	%rcx, %rsi
	jmp	.LBB64_6
.LBB64_15:                              # %arm.1.i.i.i.i.i.i
	movq	24(%rsp), %rdi                  # 8-byte Reload
	testq	%rdi, %rdi
	je	.LBB64_19
# %bb.16:                               # %"records::byte_at.exit.i.i.i.i.i.i.i.i"
	movq	8(%rsp), %rsi                   # 8-byte Reload
	movzbl	(%rsi), %eax
	cmpq	$1, %rdi
	movq	16(%rsp), %rdx                  # 8-byte Reload
	je	.LBB64_20
# %bb.17:                               # %then.1.i6.i.i.i.i.i.i.i.i
	movzbl	1(%rsi), %esi
	shll	$8, %esi
	movzwl	%ax, %eax
	orl	%esi, %eax
	jmp	.LBB64_20
.LBB64_18:
	movq	%rcx, %rsi
	jmp	.LBB64_6
.LBB64_19:
	xorl	%eax, %eax
	movq	16(%rsp), %rdx                  # 8-byte Reload
.LBB64_20:                              # %"records::le16_at.exit.i.i.i.i.i.i.i"
	movzwl	%ax, %eax
	addq	$4, %rax
	movl	$11, %esi
	cmpq	%rdi, %rax
	jb	.LBB64_6
# %bb.21:                               # %arm.7.i.i.i.i
	cmpq	%r12, %r14
	jb	.LBB64_22
# %bb.23:                               # %"sheets::put_five.exit.i.i.i.i.i.i"
	movb	%r15b, %bpl
	shll	$12, %ebp
	movaps	128(%rsp), %xmm0
	movaps	144(%rsp), %xmm1
	movq	160(%rsp), %rax
	cmpq	$4, %rdx
	sete	%sil
	leal	(,%rsi,4), %edi
	addb	$36, %dil
	addb	$3, %sil
	movq	224(%rsp), %r8
	movb	%dil, (%r8,%rbp)
	movb	$0, 1(%r8,%rbp)
	movb	%sil, 2(%r8,%rbp)
	movb	$0, 3(%r8,%rbp)
	movl	%ecx, 4(%r8,%rbp)
	movups	%xmm0, 8(%r8,%rbp)
	movups	%xmm1, 24(%r8,%rbp)
	cmpq	$4, %rdx
	jne	.LBB64_22
# %bb.24:                               # %arm.2.i.i.i.i.i.i
	movq	%r8, %rdi
	cmpq	$44, %r14
	jb	.LBB64_27
# %bb.25:                               # %then.4.i.i.i.i.i.i.i
	movl	%eax, 40(%rdi,%rbp)
	xorl	%eax, %eax
	jmp	.LBB64_7
.LBB64_27:                              # %join.6.i.i.i.i.i.i.i
	cmpq	$41, %r14
	jb	.LBB64_22
# %bb.28:                               # %join.5.i.i.preheader.i.i.i.i.i.i
	decq	%r14
	movb	%al, 40(%rdi,%rbp)
	cmpq	$40, %r14
	je	.LBB64_22
# %bb.31:                               # %join.5.i.i.i.i.i.i.i.i.1
	movb	%ah, 41(%rdi,%rbp)
	cmpq	$41, %r14
	jne	.LBB64_33
.LBB64_22:
	xorl	%eax, %eax
	jmp	.LBB64_7
.LBB64_33:                              # %join.5.i.i.i.i.i.i.i.i.2
	shrl	$16, %eax
	movb	%al, 42(%rdi,%rbp)
	xorl	%eax, %eax
	jmp	.LBB64_7
.Lfunc_end64:
	.size	tteuyomal_queue_compose, .Lfunc_end64-tteuyomal_queue_compose
                                        # -- End function
	.section	.text.tteuyomal_queue_drop,"ax",@progbits
	.globl	tteuyomal_queue_drop            # -- Begin function tteuyomal_queue_drop
	.p2align	4
	.type	tteuyomal_queue_drop,@function
tteuyomal_queue_drop:                   # @tteuyomal_queue_drop
# %bb.0:                                # %start
	movl	$9, %eax
	cmpq	$8448, %rsi                     # imm = 0x2100
	jb	.LBB65_13
# %bb.1:                                # %join.3.i.i.i.i
	xorl	%eax, %eax
	testq	%rdi, %rdi
	sete	%al
	shll	$12, %eax
	addq	%rdi, %rax
	testq	%rdx, %rdx
	movl	$4224, %esi                     # imm = 0x1080
	cmoveq	%rdx, %rsi
	leaq	(%rax,%rsi), %rdx
	cmpw	%cx, (%rsi,%rax)
	jne	.LBB65_3
# %bb.2:
	xorl	%esi, %esi
	jmp	.LBB65_10
.LBB65_3:                               # %join.8.i.i.i.i.i.i
	movl	$1, %esi
	cmpw	%cx, 528(%rdx)
	je	.LBB65_10
# %bb.4:                                # %join.8.1.i.i.i.i.i.i
	movl	$2, %esi
	cmpw	%cx, 1056(%rdx)
	je	.LBB65_10
# %bb.5:                                # %join.8.2.i.i.i.i.i.i
	movl	$3, %esi
	cmpw	%cx, 1584(%rdx)
	je	.LBB65_10
# %bb.6:                                # %join.8.3.i.i.i.i.i.i
	movl	$4, %esi
	cmpw	%cx, 2112(%rdx)
	je	.LBB65_10
# %bb.7:                                # %join.8.4.i.i.i.i.i.i
	movl	$5, %esi
	cmpw	%cx, 2640(%rdx)
	je	.LBB65_10
# %bb.8:                                # %join.8.5.i.i.i.i.i.i
	movl	$6, %esi
	cmpw	%cx, 3168(%rdx)
	je	.LBB65_10
# %bb.9:                                # %join.8.6.i.i.i.i.i.i
	xorl	%esi, %esi
	cmpw	%cx, 3696(%rdx)
	setne	%sil
	addq	$7, %rsi
.LBB65_10:                              # %"queues::places::place_of.exit.i.i.i.i.i"
	movl	$30, %eax
	testw	%cx, %cx
	je	.LBB65_13
# %bb.11:                               # %"queues::places::place_of.exit.i.i.i.i.i"
	cmpl	$7, %esi
	ja	.LBB65_13
# %bb.12:                               # %"queues::drop.exit.i.i.i"
	imulq	$528, %rsi, %rax                # imm = 0x210
	movw	$0, (%rdx,%rax)
	xorl	%eax, %eax
.LBB65_13:                              # %"tteuyomal_c::two_queues::tteuyomal_queue_drop.exit"
	retq
.Lfunc_end65:
	.size	tteuyomal_queue_drop, .Lfunc_end65-tteuyomal_queue_drop
                                        # -- End function
	.section	.text.tteuyomal_queue_empty,"ax",@progbits
	.globl	tteuyomal_queue_empty           # -- Begin function tteuyomal_queue_empty
	.p2align	4
	.type	tteuyomal_queue_empty,@function
tteuyomal_queue_empty:                  # @tteuyomal_queue_empty
# %bb.0:                                # %start
	pushq	%rbx
	movl	$9, %ebx
	cmpq	$8448, %rsi                     # imm = 0x2100
	jb	.LBB66_2
# %bb.1:                                # %"queues::empty.exit.thread.i.i.i"
	xorl	%eax, %eax
	testq	%rdi, %rdi
	sete	%al
	shll	$12, %eax
	addq	%rdi, %rax
	xorl	%ebx, %ebx
	movl	$8448, %edx                     # imm = 0x2100
	movq	%rax, %rdi
	xorl	%esi, %esi
	callq	memset@PLT
.LBB66_2:                               # %"tteuyomal_c::two_queues::tteuyomal_queue_empty.exit"
	movq	%rbx, %rax
	popq	%rbx
	retq
.Lfunc_end66:
	.size	tteuyomal_queue_empty, .Lfunc_end66-tteuyomal_queue_empty
                                        # -- End function
	.section	.text.tteuyomal_queue_look,"ax",@progbits
	.globl	tteuyomal_queue_look            # -- Begin function tteuyomal_queue_look
	.p2align	4
	.type	tteuyomal_queue_look,@function
tteuyomal_queue_look:                   # @tteuyomal_queue_look
# %bb.0:                                # %start
	xorl	%r10d, %r10d
	testq	%r8, %r8
	sete	%r11b
	movl	$9, %eax
	cmpq	$8448, %rsi                     # imm = 0x2100
	jae	.LBB67_1
.LBB67_14:                              # %"tteuyomal_c::two_queues::tteuyomal_queue_look.exit"
	retq
.LBB67_1:                               # %join.3.i.i.i.i
	xorl	%eax, %eax
	testq	%rdi, %rdi
	sete	%al
	shll	$12, %eax
	addq	%rdi, %rax
	testq	%rdx, %rdx
	movl	$4224, %esi                     # imm = 0x1080
	cmoveq	%rdx, %rsi
	leaq	(%rax,%rsi), %rdx
	cmpw	%cx, (%rsi,%rax)
	jne	.LBB67_3
# %bb.2:
	xorl	%esi, %esi
	jmp	.LBB67_10
.LBB67_3:                               # %join.8.i.i.i.i.i.i
	movl	$1, %esi
	cmpw	%cx, 528(%rdx)
	je	.LBB67_10
# %bb.4:                                # %join.8.1.i.i.i.i.i.i
	movl	$2, %esi
	cmpw	%cx, 1056(%rdx)
	je	.LBB67_10
# %bb.5:                                # %join.8.2.i.i.i.i.i.i
	movl	$3, %esi
	cmpw	%cx, 1584(%rdx)
	je	.LBB67_10
# %bb.6:                                # %join.8.3.i.i.i.i.i.i
	movl	$4, %esi
	cmpw	%cx, 2112(%rdx)
	je	.LBB67_10
# %bb.7:                                # %join.8.4.i.i.i.i.i.i
	movl	$5, %esi
	cmpw	%cx, 2640(%rdx)
	je	.LBB67_10
# %bb.8:                                # %join.8.5.i.i.i.i.i.i
	movl	$6, %esi
	cmpw	%cx, 3168(%rdx)
	je	.LBB67_10
# %bb.9:                                # %join.8.6.i.i.i.i.i.i
	xorl	%esi, %esi
	cmpw	%cx, 3696(%rdx)
	setne	%sil
	addq	$7, %rsi
.LBB67_10:                              # %"queues::places::place_of.exit.i.i.i.i.i"
	movl	$30, %eax
	testw	%cx, %cx
	je	.LBB67_14
# %bb.11:                               # %"queues::places::place_of.exit.i.i.i.i.i"
	cmpl	$7, %esi
	ja	.LBB67_14
# %bb.12:                               # %arm.2.i.i.i.i
	movl	$9, %eax
	cmpq	$6, %r9
	jb	.LBB67_14
# %bb.13:                               # %join.5.i.i.preheader.i.i.i.i.i
	movb	%r11b, %r10b
	shll	$12, %r10d
	imulq	$528, %rsi, %rax                # imm = 0x210
	movzbl	2(%rdx,%rax), %ecx
	cmpb	$64, %cl
	movl	$64, %esi
	cmovbl	%ecx, %esi
	movzbl	%sil, %ecx
	movl	4(%rdx,%rax), %esi
	movl	8(%rdx,%rax), %edi
	leaq	(%rsi,%rdi), %r9
	movzbl	3(%rdx,%rax), %r11d
	movl	12(%rdx,%rax), %eax
	movq	%rcx, (%r8,%r10)
	movq	%r9, 8(%r8,%r10)
	movq	%rsi, 16(%r8,%r10)
	movq	%rdi, 24(%r8,%r10)
	movq	%rax, 32(%r8,%r10)
	movq	%r11, 40(%r8,%r10)
	xorl	%eax, %eax
	retq
.Lfunc_end67:
	.size	tteuyomal_queue_look, .Lfunc_end67-tteuyomal_queue_look
                                        # -- End function
	.section	.rodata.cst16,"aM",@progbits,16
	.p2align	4, 0x0                          # -- Begin function tteuyomal_read_molfile
.LCPI68_0:
	.short	255                             # 0xff
	.short	255                             # 0xff
	.short	255                             # 0xff
	.short	255                             # 0xff
	.short	255                             # 0xff
	.short	255                             # 0xff
	.short	255                             # 0xff
	.short	255                             # 0xff
	.section	.text.tteuyomal_read_molfile,"ax",@progbits
	.globl	tteuyomal_read_molfile
	.p2align	4
	.type	tteuyomal_read_molfile,@function
tteuyomal_read_molfile:                 # @tteuyomal_read_molfile
# %bb.0:                                # %start
	pushq	%rbp
	pushq	%r15
	pushq	%r14
	pushq	%r13
	pushq	%r12
	pushq	%rbx
	subq	$1736, %rsp                     # imm = 0x6C8
	movq	%rsi, %rbx
	xorl	%r14d, %r14d
	testq	%rdi, %rdi
	sete	%r14b
	shll	$12, %r14d
	addq	%rdi, %r14
	xorl	%ebp, %ebp
	testq	%rdx, %rdx
	sete	%al
	xorl	%r12d, %r12d
	testq	%r8, %r8
	sete	%r13b
	cmpq	$1, %r9
	ja	.LBB68_21
# %bb.1:                                # %then.1.i.i.i
	pxor	%xmm0, %xmm0
	movdqa	%xmm0, 16(%rsp)
	movq	$0, 32(%rsp)
	leaq	454(%rsp), %r15
	movl	$770, %edx                      # imm = 0x302
	movq	%r15, %rdi
	xorl	%esi, %esi
	callq	memset@PLT
	leaq	16(%rsp), %rdi
	movl	$385, %r8d                      # imm = 0x181
	movq	%r14, %rsi
	movq	%rbx, %rdx
	movq	%r15, %rcx
	callq	"molfile::kept_bonds"
	movq	24(%rsp), %r14
	movq	32(%rsp), %rbx
	cmpb	$0, 16(%rsp)
	jne	.LBB68_20
# %bb.2:                                # %arm.3.i.i.i.i
	leaq	69(%rsp), %rdi
	movl	$385, %edx                      # imm = 0x181
	xorl	%esi, %esi
	callq	memset@PLT
	testq	%rbx, %rbx
	je	.LBB68_15
# %bb.3:                                # %iter.check11
	cmpq	$4, %rbx
	jae	.LBB68_6
# %bb.4:
	xorl	%eax, %eax
	jmp	.LBB68_5
.LBB68_21:                              # %join.3.i.i.i
	movb	%al, 15(%rsp)                   # 1-byte Spill
	movq	%rcx, 56(%rsp)                  # 8-byte Spill
	movq	%rdx, 40(%rsp)                  # 8-byte Spill
	movq	%r8, 48(%rsp)                   # 8-byte Spill
	pxor	%xmm0, %xmm0
	movdqa	%xmm0, 16(%rsp)
	movq	$0, 32(%rsp)
	leaq	454(%rsp), %r15
	movl	$770, %edx                      # imm = 0x302
	movq	%r15, %rdi
	xorl	%esi, %esi
	callq	memset@PLT
	leaq	16(%rsp), %rdi
	movl	$385, %r8d                      # imm = 0x181
	movq	%r14, %rsi
	movq	%rbx, %rdx
	movq	%r15, %rcx
	callq	"molfile::kept_bonds"
	movq	24(%rsp), %r14
	movq	32(%rsp), %rbx
	cmpb	$0, 16(%rsp)
	jne	.LBB68_20
# %bb.22:                               # %arm.3.i17.i.i.i
	leaq	69(%rsp), %rdi
	movl	$385, %edx                      # imm = 0x181
	xorl	%esi, %esi
	callq	memset@PLT
	testq	%rbx, %rbx
	je	.LBB68_35
# %bb.23:                               # %iter.check
	cmpq	$4, %rbx
	jae	.LBB68_26
# %bb.24:
	xorl	%eax, %eax
	jmp	.LBB68_25
.LBB68_6:                               # %vector.main.loop.iter.check13
	cmpq	$16, %rbx
	jae	.LBB68_8
# %bb.7:
	xorl	%eax, %eax
	jmp	.LBB68_12
.LBB68_26:                              # %vector.main.loop.iter.check
	cmpq	$16, %rbx
	jae	.LBB68_28
# %bb.27:
	xorl	%eax, %eax
	jmp	.LBB68_32
.LBB68_8:                               # %vector.ph14
	movq	%rbx, %rax
	andq	$-16, %rax
	xorl	%ecx, %ecx
	.p2align	4
.LBB68_9:                               # %vector.body17
                                        # =>This Inner Loop Header: Depth=1
	movdqu	454(%rsp,%rcx,2), %xmm0
	movdqu	470(%rsp,%rcx,2), %xmm1
	movdqa	.LCPI68_0(%rip), %xmm2          # xmm2 = [255,255,255,255,255,255,255,255]
	pand	%xmm2, %xmm0
	pand	%xmm2, %xmm1
	packuswb	%xmm1, %xmm0
	movdqu	%xmm0, 69(%rsp,%rcx)
	addq	$16, %rcx
	cmpq	%rcx, %rax
	jne	.LBB68_9
# %bb.10:                               # %middle.block22
	cmpq	%rax, %rbx
	je	.LBB68_15
# %bb.11:                               # %vec.epilog.iter.check26
	testb	$12, %bl
	je	.LBB68_5
.LBB68_12:                              # %vec.epilog.ph28
	movq	%rax, %rcx
	movq	%rbx, %rax
	andq	$-4, %rax
	.p2align	4
.LBB68_13:                              # %vec.epilog.vector.body31
                                        # =>This Inner Loop Header: Depth=1
	movq	454(%rsp,%rcx,2), %xmm0         # xmm0 = mem[0],zero
	pand	.LCPI68_0(%rip), %xmm0
	packuswb	%xmm0, %xmm0
	movd	%xmm0, 69(%rsp,%rcx)
	addq	$4, %rcx
	cmpq	%rcx, %rax
	jne	.LBB68_13
	jmp	.LBB68_14
.LBB68_28:                              # %vector.ph
	movq	%rbx, %rax
	andq	$-16, %rax
	xorl	%ecx, %ecx
	.p2align	4
.LBB68_29:                              # %vector.body
                                        # =>This Inner Loop Header: Depth=1
	movdqu	454(%rsp,%rcx,2), %xmm0
	movdqu	470(%rsp,%rcx,2), %xmm1
	movdqa	.LCPI68_0(%rip), %xmm2          # xmm2 = [255,255,255,255,255,255,255,255]
	pand	%xmm2, %xmm0
	pand	%xmm2, %xmm1
	packuswb	%xmm1, %xmm0
	movdqu	%xmm0, 69(%rsp,%rcx)
	addq	$16, %rcx
	cmpq	%rcx, %rax
	jne	.LBB68_29
# %bb.30:                               # %middle.block
	cmpq	%rax, %rbx
	je	.LBB68_35
# %bb.31:                               # %vec.epilog.iter.check
	testb	$12, %bl
	je	.LBB68_25
.LBB68_32:                              # %vec.epilog.ph
	movq	%rax, %rcx
	movq	%rbx, %rax
	andq	$-4, %rax
	.p2align	4
.LBB68_33:                              # %vec.epilog.vector.body
                                        # =>This Inner Loop Header: Depth=1
	movq	454(%rsp,%rcx,2), %xmm0         # xmm0 = mem[0],zero
	pand	.LCPI68_0(%rip), %xmm0
	packuswb	%xmm0, %xmm0
	movd	%xmm0, 69(%rsp,%rcx)
	addq	$4, %rcx
	cmpq	%rcx, %rax
	jne	.LBB68_33
	jmp	.LBB68_34
.LBB68_5:                               # %join.5.i.i.i.i.i
	movzbl	454(%rsp,%rax,2), %ecx
	movb	%cl, 69(%rsp,%rax)
	incq	%rax
.LBB68_14:                              # %join.5.i.i.i.i.i
	cmpq	%rax, %rbx
	jne	.LBB68_5
.LBB68_15:                              # %"blockfile::narrow.exit.i.i.i.i"
	leaq	1224(%rsp), %r15
	movl	$512, %edx                      # imm = 0x200
	movq	%r15, %rdi
	xorl	%esi, %esi
	callq	memset@PLT
	leaq	69(%rsp), %rsi
	movq	%r14, %rdi
	movq	%rbx, %rdx
	movq	%r15, %rcx
	callq	"block::admit"
	testb	%al, %al
	je	.LBB68_19
# %bb.16:                               # %arm.1.i.i.i.i.i
	cmpq	$1, %rbx
	ja	.LBB68_17
# %bb.18:                               # %join.7.i.i.i.i.i
	movl	$9, %ebx
	jmp	.LBB68_40
.LBB68_17:
	movl	$9, %r14d
	xorl	%ebx, %ebx
	jmp	.LBB68_20
.LBB68_19:                              # %arm.2.i.i.i.i.i
	leaq	69(%rsp), %rsi
	movq	%r14, %rdi
	movq	%rbx, %rdx
	callq	"block::refusal"
	movq	%rax, %r14
	movq	%rdx, %rbx
.LBB68_20:                              # %arm.1.i.i.i.i
	movzbl	%r14b, %eax
	shlq	$8, %rbx
	orq	%rax, %rbx
.LBB68_40:                              # %"tteuyomal_c::texts::tteuyomal_read_molfile.exit"
	movq	%rbx, %rax
	addq	$1736, %rsp                     # imm = 0x6C8
	popq	%rbx
	popq	%r12
	popq	%r13
	popq	%r14
	popq	%r15
	popq	%rbp
	retq
.LBB68_25:                              # %join.5.i.i19.i.i.i
	movzbl	454(%rsp,%rax,2), %ecx
	movb	%cl, 69(%rsp,%rax)
	incq	%rax
.LBB68_34:                              # %join.5.i.i19.i.i.i
	cmpq	%rax, %rbx
	jne	.LBB68_25
.LBB68_35:                              # %"blockfile::narrow.exit.i28.i.i.i"
	leaq	1224(%rsp), %r15
	movl	$512, %edx                      # imm = 0x200
	movq	%r15, %rdi
	xorl	%esi, %esi
	callq	memset@PLT
	leaq	69(%rsp), %rsi
	movq	%r14, %rdi
	movq	%rbx, %rdx
	movq	%r15, %rcx
	callq	"block::admit"
	testb	%al, %al
	je	.LBB68_19
# %bb.36:                               # %arm.1.i.i40.i.i.i
	cmpq	%rbx, 56(%rsp)                  # 8-byte Folded Reload
	jb	.LBB68_17
# %bb.37:                               # %join.7.i.i42.i.i.i
	movb	%r13b, %r12b
	shll	$12, %r12d
	testq	%rbx, %rbx
	je	.LBB68_39
# %bb.38:                               # %join.5.i10.preheader.i.i43.i.i.i
	movzbl	15(%rsp), %eax                  # 1-byte Folded Reload
	movb	%al, %bpl
	shll	$12, %ebp
	movq	40(%rsp), %rdi                  # 8-byte Reload
	addq	%rbp, %rdi
	leaq	69(%rsp), %rsi
	movq	%rbx, %rdx
	callq	memcpy@PLT
.LBB68_39:                              # %join.5.i.i.preheader.i54.i.i.i
	shrq	%rbx
	movq	48(%rsp), %rax                  # 8-byte Reload
	movq	%r14, (%rax,%r12)
	movq	%rbx, 8(%rax,%r12)
	xorl	%ebx, %ebx
	jmp	.LBB68_40
.Lfunc_end68:
	.size	tteuyomal_read_molfile, .Lfunc_end68-tteuyomal_read_molfile
                                        # -- End function
	.section	.text.tteuyomal_read_neighbours,"ax",@progbits
	.globl	tteuyomal_read_neighbours       # -- Begin function tteuyomal_read_neighbours
	.p2align	4
	.type	tteuyomal_read_neighbours,@function
tteuyomal_read_neighbours:              # @tteuyomal_read_neighbours
# %bb.0:                                # %start
	pushq	%rbp
	pushq	%r14
	pushq	%rbx
	subq	$80, %rsp
	movq	%r8, %rbx
	movq	%rdx, %rax
	movq	%rsi, %rdx
	xorl	%esi, %esi
	testq	%rdi, %rdi
	sete	%sil
	shll	$12, %esi
	addq	%rdi, %rsi
	xorl	%r14d, %r14d
	testq	%r8, %r8
	sete	%bpl
	xorps	%xmm0, %xmm0
	movaps	%xmm0, 48(%rsp)
	movq	$0, 64(%rsp)
	movaps	%xmm0, 16(%rsp)
	movq	$0, 32(%rsp)
	cmpq	$1, %r9
	ja	.LBB69_3
# %bb.1:                                # %then.1.i.i.i
	leaq	48(%rsp), %rdi
	leaq	15(%rsp), %rcx
	movl	$1, %r8d
	callq	"neighbours::read"
	movl	$9, %eax
	cmpb	$1, 48(%rsp)
	jne	.LBB69_7
# %bb.2:                                # %arm.1.i.i.i.i
	movq	64(%rsp), %rax
	movzbl	56(%rsp), %ecx
	jmp	.LBB69_5
.LBB69_3:                               # %join.3.i.i.i
	movq	%rcx, %r8
	xorl	%ecx, %ecx
	testq	%rax, %rax
	sete	%cl
	shll	$12, %ecx
	addq	%rax, %rcx
	leaq	16(%rsp), %rdi
	callq	"neighbours::read"
	movq	24(%rsp), %rcx
	movq	32(%rsp), %rax
	cmpb	$1, 16(%rsp)
	jne	.LBB69_6
# %bb.4:                                # %arm.1.i15.i.i.i
	movzbl	%cl, %ecx
.LBB69_5:                               # %"tteuyomal_c::texts::tteuyomal_read_neighbours.exit"
	shlq	$8, %rax
	orq	%rcx, %rax
	jmp	.LBB69_7
.LBB69_6:                               # %join.5.i.i.preheader.i12.i.i.i
	movb	%bpl, %r14b
	shll	$12, %r14d
	movq	%rcx, (%rbx,%r14)
	movq	%rax, 8(%rbx,%r14)
	xorl	%eax, %eax
.LBB69_7:                               # %"tteuyomal_c::texts::tteuyomal_read_neighbours.exit"
	addq	$80, %rsp
	popq	%rbx
	popq	%r14
	popq	%rbp
	retq
.Lfunc_end69:
	.size	tteuyomal_read_neighbours, .Lfunc_end69-tteuyomal_read_neighbours
                                        # -- End function
	.section	.text.tteuyomal_read_whole,"ax",@progbits
	.globl	tteuyomal_read_whole            # -- Begin function tteuyomal_read_whole
	.p2align	4
	.type	tteuyomal_read_whole,@function
tteuyomal_read_whole:                   # @tteuyomal_read_whole
# %bb.0:                                # %start
	pushq	%rbp
	pushq	%r14
	pushq	%rbx
	subq	$80, %rsp
	movq	%r8, %rbx
	movq	%rdx, %rax
	movq	%rsi, %rdx
	xorl	%esi, %esi
	testq	%rdi, %rdi
	sete	%sil
	shll	$12, %esi
	addq	%rdi, %rsi
	xorl	%r14d, %r14d
	testq	%r8, %r8
	sete	%bpl
	xorps	%xmm0, %xmm0
	movaps	%xmm0, 48(%rsp)
	movq	$0, 64(%rsp)
	movaps	%xmm0, 16(%rsp)
	movq	$0, 32(%rsp)
	cmpq	$1, %r9
	ja	.LBB70_3
# %bb.1:                                # %then.1.i.i.i
	leaq	48(%rsp), %rdi
	leaq	14(%rsp), %rcx
	movl	$1, %r8d
	callq	"wholefile::read_whole"
	movl	$9, %eax
	cmpb	$1, 48(%rsp)
	jne	.LBB70_7
# %bb.2:                                # %arm.1.i.i.i.i
	movq	64(%rsp), %rax
	movzbl	56(%rsp), %ecx
	jmp	.LBB70_5
.LBB70_3:                               # %join.3.i.i.i
	movq	%rcx, %r8
	xorl	%ecx, %ecx
	testq	%rax, %rax
	sete	%cl
	shll	$12, %ecx
	addq	%rax, %rcx
	leaq	16(%rsp), %rdi
	callq	"wholefile::read_whole"
	movq	24(%rsp), %rcx
	movq	32(%rsp), %rax
	cmpb	$1, 16(%rsp)
	jne	.LBB70_6
# %bb.4:                                # %arm.1.i15.i.i.i
	movzbl	%cl, %ecx
.LBB70_5:                               # %"tteuyomal_c::texts::tteuyomal_read_whole.exit"
	shlq	$8, %rax
	orq	%rcx, %rax
	jmp	.LBB70_7
.LBB70_6:                               # %join.5.i.i.preheader.i12.i.i.i
	movb	%bpl, %r14b
	shll	$12, %r14d
	movq	%rcx, (%rbx,%r14)
	movq	%rax, 8(%rbx,%r14)
	xorl	%eax, %eax
.LBB70_7:                               # %"tteuyomal_c::texts::tteuyomal_read_whole.exit"
	addq	$80, %rsp
	popq	%rbx
	popq	%r14
	popq	%rbp
	retq
.Lfunc_end70:
	.size	tteuyomal_read_whole, .Lfunc_end70-tteuyomal_read_whole
                                        # -- End function
	.section	.rodata.cst16,"aM",@progbits,16
	.p2align	4, 0x0                          # -- Begin function tteuyomal_sdf_item
.LCPI71_0:
	.byte	60                              # 0x3c
	.byte	60                              # 0x3c
	.zero	1
	.zero	1
	.zero	1
	.zero	1
	.zero	1
	.zero	1
	.zero	1
	.zero	1
	.zero	1
	.zero	1
	.zero	1
	.zero	1
	.zero	1
	.zero	1
.LCPI71_1:
	.quad	1                               # 0x1
	.quad	1                               # 0x1
	.section	.text.tteuyomal_sdf_item,"ax",@progbits
	.globl	tteuyomal_sdf_item
	.p2align	4
	.type	tteuyomal_sdf_item,@function
tteuyomal_sdf_item:                     # @tteuyomal_sdf_item
# %bb.0:                                # %start
	pushq	%rbp
	pushq	%r15
	pushq	%r14
	pushq	%r13
	pushq	%r12
	pushq	%rbx
	subq	$3072, %rsp                     # imm = 0xC00
	movq	$0, (%rsp)
	subq	$2024, %rsp                     # imm = 0x7E8
	movq	%rcx, %r15
	movq	%rsi, %r14
	movq	%rdi, %rbx
	xorl	%ecx, %ecx
	testq	%rdi, %rdi
	sete	%sil
	xorl	%r10d, %r10d
	testq	%rdx, %rdx
	sete	%dil
	xorl	%ebp, %ebp
	testq	%r8, %r8
	sete	%r13b
	movl	$38, %eax
	testq	%r15, %r15
	je	.LBB71_53
# %bb.1:                                # %join.5.i.i.i.i.i.i.preheader
	movb	%dil, %r10b
	shll	$12, %r10d
	leaq	(%rdx,%r10), %r12
	cmpq	$4, %r15
	jae	.LBB71_3
# %bb.2:
	xorl	%edx, %edx
	xorl	%edi, %edi
	jmp	.LBB71_6
.LBB71_3:                               # %vector.ph
	movq	%r15, %rdi
	andq	$-4, %rdi
	addq	%r10, %rdx
	addq	$2, %rdx
	pxor	%xmm0, %xmm0
	xorl	%r10d, %r10d
	pxor	%xmm1, %xmm1
	.p2align	4
.LBB71_4:                               # %vector.body
                                        # =>This Inner Loop Header: Depth=1
	movzwl	-2(%rdx,%r10), %r11d
	movd	%r11d, %xmm2
	movzwl	(%rdx,%r10), %r11d
	movd	%r11d, %xmm3
	movdqa	.LCPI71_0(%rip), %xmm4          # xmm4 = [60,60,u,u,u,u,u,u,u,u,u,u,u,u,u,u]
	pcmpeqb	%xmm4, %xmm2
	punpcklbw	%xmm2, %xmm2            # xmm2 = xmm2[0,0,1,1,2,2,3,3,4,4,5,5,6,6,7,7]
	pshuflw	$212, %xmm2, %xmm2              # xmm2 = xmm2[0,1,1,3,4,5,6,7]
	pshufd	$212, %xmm2, %xmm2              # xmm2 = xmm2[0,1,1,3]
	movdqa	.LCPI71_1(%rip), %xmm5          # xmm5 = [1,1]
	pand	%xmm5, %xmm2
	paddq	%xmm2, %xmm1
	pcmpeqb	%xmm4, %xmm3
	punpcklbw	%xmm3, %xmm3            # xmm3 = xmm3[0,0,1,1,2,2,3,3,4,4,5,5,6,6,7,7]
	pshuflw	$212, %xmm3, %xmm2              # xmm2 = xmm3[0,1,1,3,4,5,6,7]
	pshufd	$212, %xmm2, %xmm2              # xmm2 = xmm2[0,1,1,3]
	pand	%xmm5, %xmm2
	paddq	%xmm2, %xmm0
	addq	$4, %r10
	cmpq	%r10, %rdi
	jne	.LBB71_4
# %bb.5:                                # %middle.block
	paddq	%xmm1, %xmm0
	pshufd	$238, %xmm0, %xmm1              # xmm1 = xmm0[2,3,2,3]
	paddq	%xmm0, %xmm1
	movq	%xmm1, %rdx
	jmp	.LBB71_7
.LBB71_6:                               # %join.5.i.i.i.i.i.i
	xorl	%r10d, %r10d
	cmpb	$60, (%r12,%rdi)
	sete	%r10b
	addq	%r10, %rdx
	incq	%rdi
.LBB71_7:                               # %join.5.i.i.i.i.i.i
	cmpq	%rdi, %r15
	jne	.LBB71_6
# %bb.8:                                # %"sdfile::is_no_name.exit.i.i.i.i"
	cmpq	$16, %rdx
	ja	.LBB71_53
# %bb.9:                                # %join.3.i.i.i.i
	movq	%r9, 16(%rsp)                   # 8-byte Spill
	movq	%r8, 24(%rsp)                   # 8-byte Spill
	movb	%sil, %cl
	shll	$12, %ecx
	addq	%rcx, %rbx
	leaq	64(%rsp), %rdi
	movq	%rbx, %rsi
	movq	%r14, %rdx
	callq	"molfile::counts_line"
	cmpb	$1, 64(%rsp)
	jne	.LBB71_14
# %bb.10:                               # %"molfile::ending::rest_place.exit.thread.i.i.i.i.i"
	movq	%r14, %rdx
.LBB71_11:                              # %"sdfile::items_from.exit.i.i.i.i"
	movb	%r13b, 15(%rsp)                 # 1-byte Spill
	movq	%rbx, %rdi
	movq	%r14, %rsi
	callq	"text::line_end"
	leaq	1(%rax), %rdx
	cmpq	%rax, %r14
	cmovbeq	%r14, %rdx
	movq	%rbx, %rdi
	movq	%r14, %rsi
	movq	%r12, %rcx
	movq	%r15, %r8
	callq	"sdfile::header_from"
	movq	%rax, %rdx
	cmpq	%rax, %r14
	movl	$38, %eax
	jbe	.LBB71_53
# %bb.12:                               # %join.6.i.i.i.i
	movq	%rbx, %rdi
	movq	%r14, %rsi
	callq	"text::line_end"
	leaq	1(%rax), %r13
	cmpq	%rax, %r14
	cmovbeq	%r14, %r13
	movq	%rbx, %rdi
	movq	%r14, %rsi
	movq	%r13, %rdx
	movq	%r12, %rcx
	movq	%r15, %r8
	callq	"sdfile::header_from"
	cmpq	%r14, %rax
	jae	.LBB71_37
# %bb.13:                               # %"sdfile::item.exit.i.i.i"
	shlq	$8, %rax
	orq	$39, %rax
	jmp	.LBB71_53
.LBB71_14:                              # %"molfile::ending::rest_place.exit.i.i.i.i.i"
	leaq	72(%rsp), %rcx
	pxor	%xmm0, %xmm0
	movdqa	%xmm0, 32(%rsp)
	movq	$0, 48(%rsp)
	leaq	1100(%rsp), %rax
	movq	%rax, (%rsp)
	leaq	32(%rsp), %rdi
	leaq	101(%rsp), %r8
	leaq	3098(%rsp), %r9
	movq	%rbx, %rsi
	movq	%r14, %rdx
	callq	"molfile::lists"
	cmpb	$1, 32(%rsp)
	movq	%r14, %rdx
	je	.LBB71_19
# %bb.15:                               # %"molfile::ending::rest_place.exit.i.i.i.i.i"
	movq	40(%rsp), %rdx
	jmp	.LBB71_19
	.p2align	4
.LBB71_16:                              #   in Loop: Header=BB71_19 Depth=1
	movq	%rax, %rsi
.LBB71_17:                              # %"text::starts_with.exit.i.i.i.i.i.i"
                                        #   in Loop: Header=BB71_19 Depth=1
	cmpq	$4, %rsi
	ja	.LBB71_11
.LBB71_18:                              # %join.8.i.i.i.i.i.i
                                        #   in Loop: Header=BB71_19 Depth=1
	movq	%rbx, %rdi
	movq	%r14, %rsi
	callq	"text::line_end"
	leaq	1(%rax), %rdx
	cmpq	%rax, %r14
	cmovbeq	%r14, %rdx
.LBB71_19:                              # %"molfile::ending::rest_place.exit.i.i.i.i.i"
                                        # =>This Inner Loop Header: Depth=1
	cmpq	%r14, %rdx
	jae	.LBB71_11
# %bb.20:                               # %join.5.i.i8.i.i.i.i
                                        #   in Loop: Header=BB71_19 Depth=1
	movq	%rdx, %rcx
	notq	%rcx
	addq	%r14, %rcx
	cmpq	$5, %rcx
	movl	$5, %eax
	cmovbq	%rcx, %rax
	cmpb	$77, (%rbx,%rdx)
	jne	.LBB71_18
# %bb.21:                               # %loop.2.i.i.i.i.i.i.i
                                        #   in Loop: Header=BB71_19 Depth=1
	testq	%rcx, %rcx
	je	.LBB71_16
# %bb.22:                               # %join.8.i.i.i.i.i.i.i
                                        #   in Loop: Header=BB71_19 Depth=1
	cmpb	$32, 1(%rbx,%rdx)
	jne	.LBB71_25
# %bb.23:                               # %loop.2.i.i.i.i.i.i.i.1
                                        #   in Loop: Header=BB71_19 Depth=1
	cmpq	$1, %rcx
	je	.LBB71_16
# %bb.26:                               # %join.8.i.i.i.i.i.i.i.1
                                        #   in Loop: Header=BB71_19 Depth=1
	movl	$1, %esi
	cmpb	$32, 2(%rbx,%rdx)
	jne	.LBB71_17
# %bb.27:                               # %loop.2.i.i.i.i.i.i.i.2
                                        #   in Loop: Header=BB71_19 Depth=1
	cmpq	$2, %rcx
	je	.LBB71_16
# %bb.29:                               # %join.8.i.i.i.i.i.i.i.2
                                        #   in Loop: Header=BB71_19 Depth=1
	movl	$2, %esi
	cmpb	$69, 3(%rbx,%rdx)
	jne	.LBB71_17
# %bb.30:                               # %loop.2.i.i.i.i.i.i.i.3
                                        #   in Loop: Header=BB71_19 Depth=1
	cmpq	$3, %rcx
	je	.LBB71_16
# %bb.32:                               # %join.8.i.i.i.i.i.i.i.3
                                        #   in Loop: Header=BB71_19 Depth=1
	movl	$3, %esi
	cmpb	$78, 4(%rbx,%rdx)
	jne	.LBB71_17
# %bb.33:                               # %loop.2.i.i.i.i.i.i.i.4
                                        #   in Loop: Header=BB71_19 Depth=1
	cmpq	$4, %rcx
	je	.LBB71_16
# %bb.35:                               # %join.8.i.i.i.i.i.i.i.4
                                        #   in Loop: Header=BB71_19 Depth=1
	movl	$4, %esi
	cmpb	$68, 5(%rbx,%rdx)
	jne	.LBB71_17
# %bb.36:                               # %loop.2.i.i.i.i.i.i.i.5
                                        #   in Loop: Header=BB71_19 Depth=1
	cmpq	$5, %rcx
	movl	$5, %esi
	cmovaeq	%rax, %rsi
	jmp	.LBB71_17
.LBB71_25:                              #   in Loop: Header=BB71_19 Depth=1
	xorl	%esi, %esi
	jmp	.LBB71_17
.LBB71_37:                              # %join.3.i.i.i.i.i
	cmpq	%r13, %r14
	jbe	.LBB71_43
# %bb.38:                               # %join.3.i.i.i.i.i.i
	cmpb	$62, (%rbx,%r13)
	jne	.LBB71_47
# %bb.39:                               # %join.3.i.i.i.i.i.i.i
	movq	%rbx, %rdi
	movq	%r14, %rsi
	movq	%r13, %rdx
	callq	"text::line_end"
	movq	16(%rsp), %rcx                  # 8-byte Reload
	movq	%rax, %rsi
	subq	%r13, %rsi
	je	.LBB71_47
# %bb.40:                               # %join.5.i.i.i.i.i.i.i.i.preheader
	leaq	1(%r13), %rdx
	movq	%rax, %rdi
	negq	%rdi
	movl	$1, %r8d
.LBB71_41:                              # %join.5.i.i.i.i.i.i.i.i
                                        # =>This Inner Loop Header: Depth=1
	cmpb	$60, -1(%rbx,%rdx)
	je	.LBB71_44
# %bb.42:                               # %join.8.i.i.i.i.i.i.i.i
                                        #   in Loop: Header=BB71_41 Depth=1
	incq	%r8
	leaq	(%rdi,%rdx), %r9
	incq	%r9
	incq	%rdx
	cmpq	$1, %r9
	jne	.LBB71_41
	jmp	.LBB71_47
.LBB71_43:
	xorl	%edx, %edx
	movq	16(%rsp), %rcx                  # 8-byte Reload
	movl	$9, %eax
	cmpq	$2, %rcx
	jb	.LBB71_53
.LBB71_52:                              # %join.5.i.i.preheader.i.i.i
	movzbl	15(%rsp), %eax                  # 1-byte Folded Reload
	movb	%al, %bpl
	shll	$12, %ebp
	movq	24(%rsp), %rax                  # 8-byte Reload
	movq	%r13, (%rax,%rbp)
	movq	%rdx, 8(%rax,%rbp)
	xorl	%eax, %eax
.LBB71_53:                              # %"tteuyomal_c::claims_printed::tteuyomal_sdf_item.exit"
	addq	$5096, %rsp                     # imm = 0x13E8
	popq	%rbx
	popq	%r12
	popq	%r13
	popq	%r14
	popq	%r15
	popq	%rbp
	retq
.LBB71_44:                              # %then.6.i.i.i.i.i.i.i.i
	cmpq	%rsi, %r8
	jae	.LBB71_47
.LBB71_45:                              # %join.5.i.i.i.i.i.i.i.i.i
                                        # =>This Inner Loop Header: Depth=1
	cmpb	$62, (%rbx,%rdx)
	je	.LBB71_51
# %bb.46:                               # %loop.2.i.i.i.i.i.i.i.i.i
                                        #   in Loop: Header=BB71_45 Depth=1
	incq	%rdx
	cmpq	%rdx, %rax
	jne	.LBB71_45
.LBB71_47:                              # %join.6.i.i.i.i.i.i
	movq	%rbx, %rdi
	movq	%r14, %rsi
	movq	%r13, %rdx
	callq	"text::line_end"
	movq	%rax, %rdx
	subq	%r13, %rdx
	cmpq	%rax, %r14
	jbe	.LBB71_50
# %bb.48:                               # %join.3.i5.i.i.i.i.i.i
	testq	%rdx, %rdx
	movq	16(%rsp), %rcx                  # 8-byte Reload
	je	.LBB71_51
# %bb.49:                               # %join.7.i.i.i.i.i.i.i
	xorl	%esi, %esi
	cmpb	$13, -1(%rbx,%rax)
	sete	%sil
	subq	%rsi, %rdx
	movl	$9, %eax
	cmpq	$2, %rcx
	jae	.LBB71_52
	jmp	.LBB71_53
.LBB71_50:
	movq	16(%rsp), %rcx                  # 8-byte Reload
	movl	$9, %eax
	cmpq	$2, %rcx
	jae	.LBB71_52
	jmp	.LBB71_53
.LBB71_51:
	xorl	%edx, %edx
	movl	$9, %eax
	cmpq	$2, %rcx
	jb	.LBB71_53
	jmp	.LBB71_52
.Lfunc_end71:
	.size	tteuyomal_sdf_item, .Lfunc_end71-tteuyomal_sdf_item
                                        # -- End function
	.section	.text.tteuyomal_sdf_record,"ax",@progbits
	.globl	tteuyomal_sdf_record            # -- Begin function tteuyomal_sdf_record
	.p2align	4
	.type	tteuyomal_sdf_record,@function
tteuyomal_sdf_record:                   # @tteuyomal_sdf_record
# %bb.0:                                # %start
	pushq	%rbp
	pushq	%r15
	pushq	%r14
	pushq	%r13
	pushq	%r12
	pushq	%rbx
	pushq	%rax
	movq	%rdx, %rbx
	movq	%rsi, %r14
	movq	%rdi, %r15
	xorl	%edx, %edx
	testq	%rdi, %rdi
	sete	%dil
	xorl	%r12d, %r12d
	testq	%rcx, %rcx
	sete	%sil
	movl	$254, %eax
	cmpq	%r14, %rbx
	jae	.LBB72_5
# %bb.1:                                # %join.5.i.i.i.i.i.preheader
	movb	%dil, %dl
	shll	$12, %edx
	addq	%rdx, %r15
	movb	%sil, %r12b
	shll	$12, %r12d
	movq	%rbx, %rdx
	.p2align	4
.LBB72_2:                               # %join.5.i.i.i.i.i
                                        # =>This Inner Loop Header: Depth=1
	movzbl	(%r15,%rdx), %esi
	cmpq	$32, %rsi
	ja	.LBB72_6
# %bb.3:                                # %join.5.i.i.i.i.i
                                        #   in Loop: Header=BB72_2 Depth=1
	movabsq	$4294977024, %rdi               # imm = 0x100002600
	btq	%rsi, %rdi
	jae	.LBB72_6
# %bb.4:                                # %then.6.i.i.i.i.i
                                        #   in Loop: Header=BB72_2 Depth=1
	incq	%rdx
	cmpq	%rdx, %r14
	jne	.LBB72_2
.LBB72_5:                               # %"tteuyomal_c::claims_printed::tteuyomal_sdf_record.exit"
	addq	$8, %rsp
	popq	%rbx
	popq	%r12
	popq	%r13
	popq	%r14
	popq	%r15
	popq	%rbp
	retq
.LBB72_6:
	movq	%r8, %rbp
	movq	%rcx, %r13
	movq	%rbx, %rdx
	jmp	.LBB72_10
	.p2align	4
.LBB72_7:                               #   in Loop: Header=BB72_10 Depth=1
	movq	%rax, %rsi
.LBB72_8:                               # %"text::starts_with.exit.i.i.i.i.i"
                                        #   in Loop: Header=BB72_10 Depth=1
	cmpq	$3, %rsi
	je	.LBB72_21
.LBB72_9:                               # %join.8.i.i.i.i.i
                                        #   in Loop: Header=BB72_10 Depth=1
	movq	%r15, %rdi
	movq	%r14, %rsi
	callq	"text::line_end"
	leaq	1(%rax), %rdx
	cmpq	%rax, %r14
	cmovbeq	%r14, %rdx
	cmpq	%r14, %rdx
	jae	.LBB72_21
.LBB72_10:                              # %join.5.i10.i.i.i.i
                                        # =>This Inner Loop Header: Depth=1
	movq	%rdx, %rcx
	notq	%rcx
	addq	%r14, %rcx
	cmpq	$3, %rcx
	movl	$3, %eax
	cmovbq	%rcx, %rax
	cmpb	$36, (%r15,%rdx)
	jne	.LBB72_9
# %bb.11:                               # %loop.2.i.i.i.i.i.i
                                        #   in Loop: Header=BB72_10 Depth=1
	testq	%rcx, %rcx
	je	.LBB72_7
# %bb.12:                               # %join.8.i.i.i.i.i.i
                                        #   in Loop: Header=BB72_10 Depth=1
	cmpb	$36, 1(%r15,%rdx)
	jne	.LBB72_15
# %bb.13:                               # %loop.2.i.i.i.i.i.i.1
                                        #   in Loop: Header=BB72_10 Depth=1
	cmpq	$1, %rcx
	je	.LBB72_7
# %bb.16:                               # %join.8.i.i.i.i.i.i.1
                                        #   in Loop: Header=BB72_10 Depth=1
	movl	$1, %esi
	cmpb	$36, 2(%r15,%rdx)
	jne	.LBB72_8
# %bb.17:                               # %loop.2.i.i.i.i.i.i.2
                                        #   in Loop: Header=BB72_10 Depth=1
	cmpq	$2, %rcx
	je	.LBB72_7
# %bb.19:                               # %join.8.i.i.i.i.i.i.2
                                        #   in Loop: Header=BB72_10 Depth=1
	movl	$2, %esi
	cmpb	$36, 3(%r15,%rdx)
	jne	.LBB72_8
# %bb.20:                               # %loop.2.i.i.i.i.i.i.3
                                        #   in Loop: Header=BB72_10 Depth=1
	cmpq	$3, %rcx
	movl	$3, %esi
	cmovaeq	%rax, %rsi
	jmp	.LBB72_8
.LBB72_15:                              #   in Loop: Header=BB72_10 Depth=1
	xorl	%esi, %esi
	jmp	.LBB72_8
.LBB72_21:                              # %arm.2.i.i.i
	movq	%r15, %rdi
	movq	%r14, %rsi
	movq	%rdx, %r15
	callq	"text::line_end"
	movq	%rax, %rcx
	movl	$9, %eax
	cmpq	$3, %rbp
	jb	.LBB72_5
# %bb.22:                               # %join.5.i.i1.preheader.i.i.i
	leaq	1(%rcx), %rax
	cmpq	%rcx, %r14
	cmovbeq	%r14, %rax
	subq	%rbx, %r15
	movq	%rbx, (%r13,%r12)
	movq	%r15, 8(%r13,%r12)
	movq	%rax, 16(%r13,%r12)
	xorl	%eax, %eax
	jmp	.LBB72_5
.Lfunc_end72:
	.size	tteuyomal_sdf_record, .Lfunc_end72-tteuyomal_sdf_record
                                        # -- End function
	.section	.text.tteuyomal_szeged,"ax",@progbits
	.globl	tteuyomal_szeged                # -- Begin function tteuyomal_szeged
	.p2align	4
	.type	tteuyomal_szeged,@function
tteuyomal_szeged:                       # @tteuyomal_szeged
# %bb.0:                                # %start
	pushq	%rbp
	pushq	%r14
	pushq	%rbx
	subq	$80, %rsp
	movq	%r9, %rbx
	movq	%rcx, %rax
	movq	%rdx, %rcx
	movq	%rdi, %r10
	xorl	%edx, %edx
	testq	%rsi, %rsi
	sete	%dl
	shll	$12, %edx
	addq	%rsi, %rdx
	xorl	%r14d, %r14d
	testq	%r9, %r9
	sete	%bpl
	xorps	%xmm0, %xmm0
	movaps	%xmm0, 48(%rsp)
	movq	$0, 64(%rsp)
	movaps	%xmm0, 16(%rsp)
	movq	$0, 32(%rsp)
	cmpq	$0, 112(%rsp)
	je	.LBB73_1
# %bb.3:                                # %join.3.i.i.i
	movq	%r8, %r9
	xorl	%r8d, %r8d
	testq	%rax, %rax
	sete	%r8b
	shll	$12, %r8d
	addq	%rax, %r8
	leaq	16(%rsp), %rdi
	movq	%r10, %rsi
	callq	"szeged::terms"
	movq	24(%rsp), %rcx
	cmpb	$1, 16(%rsp)
	jne	.LBB73_6
# %bb.4:                                # %arm.1.i10.i.i.i
	movq	32(%rsp), %rax
	movzbl	%cl, %ecx
	jmp	.LBB73_5
.LBB73_1:                               # %then.1.i.i.i
	leaq	48(%rsp), %rdi
	leaq	8(%rsp), %r8
	movq	%r10, %rsi
	xorl	%r9d, %r9d
	callq	"szeged::terms"
	movl	$9, %eax
	cmpb	$1, 48(%rsp)
	jne	.LBB73_7
# %bb.2:                                # %arm.1.i.i.i.i
	movzbl	56(%rsp), %ecx
	movq	64(%rsp), %rax
.LBB73_5:                               # %"tteuyomal_c::blocks::tteuyomal_szeged.exit"
	shlq	$8, %rax
	orq	%rcx, %rax
	jmp	.LBB73_7
.LBB73_6:                               # %join.5.i.i.i.i.i.i
	movb	%bpl, %r14b
	shll	$12, %r14d
	movq	%rcx, (%rbx,%r14)
	xorl	%eax, %eax
.LBB73_7:                               # %"tteuyomal_c::blocks::tteuyomal_szeged.exit"
	addq	$80, %rsp
	popq	%rbx
	popq	%r14
	popq	%rbp
	retq
.Lfunc_end73:
	.size	tteuyomal_szeged, .Lfunc_end73-tteuyomal_szeged
                                        # -- End function
	.section	.text.tteuyomal_version,"ax",@progbits
	.globl	tteuyomal_version               # -- Begin function tteuyomal_version
	.p2align	4
	.type	tteuyomal_version,@function
tteuyomal_version:                      # @tteuyomal_version
# %bb.0:                                # %start
	movl	$4001000, %eax                  # imm = 0x3D0CE8
	retq
.Lfunc_end74:
	.size	tteuyomal_version, .Lfunc_end74-tteuyomal_version
                                        # -- End function
	.section	.rodata.cst16,"aM",@progbits,16
	.p2align	4, 0x0                          # -- Begin function tteuyomal_vertex
.LCPI75_0:
	.byte	1                               # 0x1
	.byte	2                               # 0x2
	.zero	1
	.zero	1
	.zero	1
	.zero	1
	.zero	1
	.zero	1
	.zero	1
	.zero	1
	.zero	1
	.zero	1
	.zero	1
	.zero	1
	.zero	1
	.zero	1
.LCPI75_1:
	.quad	1                               # 0x1
	.quad	1                               # 0x1
	.section	.text.tteuyomal_vertex,"ax",@progbits
	.globl	tteuyomal_vertex
	.p2align	4
	.type	tteuyomal_vertex,@function
tteuyomal_vertex:                       # @tteuyomal_vertex
# %bb.0:                                # %start
	pushq	%rbp
	pushq	%r15
	pushq	%r14
	pushq	%r13
	pushq	%r12
	pushq	%rbx
	subq	$696, %rsp                      # imm = 0x2B8
	movq	%r9, 8(%rsp)                    # 8-byte Spill
	movq	%rcx, %r12
	movq	%rdx, %r13
	movq	%rdi, %r15
	xorl	%ebp, %ebp
	testq	%rsi, %rsi
	sete	%bpl
	shll	$12, %ebp
	addq	%rsi, %rbp
	movq	%r8, (%rsp)                     # 8-byte Spill
	testq	%r8, %r8
	sete	%bl
	pxor	%xmm0, %xmm0
	movdqa	%xmm0, 160(%rsp)
	movdqa	%xmm0, 144(%rsp)
	movdqa	%xmm0, 128(%rsp)
	movdqa	%xmm0, 112(%rsp)
	movdqa	%xmm0, 96(%rsp)
	movdqa	%xmm0, 80(%rsp)
	leaq	184(%rsp), %r14
	movl	$512, %edx                      # imm = 0x200
	movq	%r14, %rdi
	xorl	%esi, %esi
	callq	memset@PLT
	movq	%r15, %rdi
	movq	%rbp, %rsi
	movq	%r13, %rdx
	movq	%r14, %rcx
	callq	"block::admit"
	testb	%al, %al
	je	.LBB75_1
# %bb.2:                                # %join.5.i.i.i.i.i
	decq	%r12
	movl	$18, %eax
	cmpq	%r15, %r12
	jae	.LBB75_14
# %bb.3:                                # %join.8.i.i.i.i.i
	xorl	%r10d, %r10d
	movb	%bl, %r10b
	shll	$12, %r10d
	pxor	%xmm0, %xmm0
	movl	$1, %esi
	movl	%r12d, %ecx
	shlq	%cl, %rsi
	movdqa	%xmm0, 64(%rsp)
	movdqa	%xmm0, 48(%rsp)
	xorl	%eax, %eax
	movl	$64, %ecx
	subq	%r15, %rcx
	cmovbq	%rax, %rcx
	movq	$-1, %rdx
                                        # kill: def $cl killed $cl killed $rcx
	shrq	%cl, %rdx
	movdqa	%xmm0, 32(%rsp)
	movdqa	%xmm0, 16(%rsp)
	btcq	%r12, %rdx
	xorl	%ecx, %ecx
	jmp	.LBB75_4
	.p2align	4
.LBB75_6:                               # %join.8.i.i.i.i.i.i
                                        #   in Loop: Header=BB75_4 Depth=1
	movq	%rdi, %rsi
	testq	%rdi, %rdi
	je	.LBB75_7
.LBB75_4:                               # %join.5.i.i.i.i.i.i
                                        # =>This Inner Loop Header: Depth=1
	rep		bsfq	%rsi, %r8
	leaq	-1(%rsi), %rdi
	orq	184(%rsp,%r8,8), %rax
	movb	%cl, 16(%rsp,%r8)
	andq	%rsi, %rdi
	jne	.LBB75_6
# %bb.5:                                # %then.6.i.i.i.i.i.i
                                        #   in Loop: Header=BB75_4 Depth=1
	movq	%rax, %rdi
	andq	%rdx, %rdi
	xorq	%rdi, %rdx
	incb	%cl
	xorl	%eax, %eax
	jmp	.LBB75_6
.LBB75_1:                               # %then.3.i.i.i.i.i
	movq	%r15, %rdi
	movq	%rbp, %rsi
	movq	%r13, %rdx
	callq	"block::refusal"
	movq	%rax, %rcx
	movq	%rdx, %rax
	movzbl	%cl, %ecx
	shlq	$8, %rax
	orq	%rcx, %rax
.LBB75_14:                              # %"tteuyomal_c::blocks::tteuyomal_vertex.exit"
	addq	$696, %rsp                      # imm = 0x2B8
	popq	%rbx
	popq	%r12
	popq	%r13
	popq	%r14
	popq	%r15
	popq	%rbp
	retq
.LBB75_7:                               # %arm.1.i.i.i.i
	decb	%cl
	movdqa	16(%rsp), %xmm0
	movdqa	32(%rsp), %xmm1
	movaps	48(%rsp), %xmm2
	movaps	64(%rsp), %xmm3
	movdqu	%xmm0, 104(%rsp)
	movdqu	%xmm1, 120(%rsp)
	movups	%xmm2, 136(%rsp)
	movups	%xmm3, 152(%rsp)
	movb	%cl, 168(%rsp)
	cmpq	$64, %r15
	movl	$64, %eax
	cmovbq	%r15, %rax
	pxor	%xmm0, %xmm0
	xorl	%r8d, %r8d
	xorl	%ecx, %ecx
	xorl	%edx, %edx
	xorl	%esi, %esi
	xorl	%edi, %edi
	jmp	.LBB75_8
	.p2align	4
.LBB75_10:                              # %else.7.i.i.i.i.i.i
                                        #   in Loop: Header=BB75_8 Depth=1
	addq	%r9, %rsi
	incq	%rcx
.LBB75_11:                              # %join.8.i.i4.i.i.i.i
                                        #   in Loop: Header=BB75_8 Depth=1
	movd	%r9d, %xmm1
	punpcklbw	%xmm1, %xmm1            # xmm1 = xmm1[0,0,1,1,2,2,3,3,4,4,5,5,6,6,7,7]
	pcmpeqb	.LCPI75_0(%rip), %xmm1
	punpcklbw	%xmm1, %xmm1            # xmm1 = xmm1[0,0,1,1,2,2,3,3,4,4,5,5,6,6,7,7]
	pshuflw	$212, %xmm1, %xmm1              # xmm1 = xmm1[0,1,1,3,4,5,6,7]
	pshufd	$212, %xmm1, %xmm1              # xmm1 = xmm1[0,1,1,3]
	pand	.LCPI75_1(%rip), %xmm1
	paddq	%xmm1, %xmm0
	incq	%r8
	cmpq	%r8, %rax
	je	.LBB75_12
.LBB75_8:                               # %join.5.i.i2.i.i.i.i
                                        # =>This Inner Loop Header: Depth=1
	movzbl	104(%rsp,%r8), %r9d
	testb	$1, %r9b
	jne	.LBB75_10
# %bb.9:                                # %then.6.i.i5.i.i.i.i
                                        #   in Loop: Header=BB75_8 Depth=1
	addq	%r9, %rdi
	incq	%rdx
	jmp	.LBB75_11
.LBB75_12:                              # %arm.2.i.i.i
	movl	$9, %eax
	cmpq	$7, 8(%rsp)                     # 8-byte Folded Reload
	jb	.LBB75_14
# %bb.13:                               # %join.5.i.i2.preheader.i.i.i
	leaq	(%rsi,%rdi), %rax
	movq	(%rsp), %r8                     # 8-byte Reload
	movq	%rax, (%r8,%r10)
	movq	%rdi, 8(%r8,%r10)
	movq	%rsi, 16(%r8,%r10)
	movq	%rdx, 24(%r8,%r10)
	movq	%rcx, 32(%r8,%r10)
	movdqu	%xmm0, 40(%r8,%r10)
	xorl	%eax, %eax
	jmp	.LBB75_14
.Lfunc_end75:
	.size	tteuyomal_vertex, .Lfunc_end75-tteuyomal_vertex
                                        # -- End function
	.section	.rodata.cst16,"aM",@progbits,16
	.p2align	4, 0x0                          # -- Begin function tteuyomal_write_molfile
.LCPI76_0:
	.byte	32                              # 0x20
	.byte	32                              # 0x20
	.byte	49                              # 0x31
	.byte	32                              # 0x20
	.byte	32                              # 0x20
	.byte	48                              # 0x30
	.byte	32                              # 0x20
	.byte	32                              # 0x20
	.byte	48                              # 0x30
	.byte	32                              # 0x20
	.byte	32                              # 0x20
	.byte	48                              # 0x30
	.byte	32                              # 0x20
	.byte	32                              # 0x20
	.byte	48                              # 0x30
	.byte	10                              # 0xa
	.section	.text.tteuyomal_write_molfile,"ax",@progbits
	.globl	tteuyomal_write_molfile
	.p2align	4
	.type	tteuyomal_write_molfile,@function
tteuyomal_write_molfile:                # @tteuyomal_write_molfile
# %bb.0:                                # %start
	pushq	%rbp
	pushq	%r15
	pushq	%r14
	pushq	%r13
	pushq	%r12
	pushq	%rbx
	subq	$568, %rsp                      # imm = 0x238
	movq	%rdx, %r12
	movq	%rdi, %rbx
	xorl	%r15d, %r15d
	testq	%rsi, %rsi
	sete	%r15b
	shll	$12, %r15d
	addq	%rsi, %r15
	testq	%rcx, %rcx
	sete	%r13b
	testq	%r9, %r9
	sete	%al
	cmpq	$0, 624(%rsp)
	je	.LBB76_1
# %bb.3:                                # %join.3.i.i.i
	movq	%r8, %r14
	movq	%rcx, 8(%rsp)                   # 8-byte Spill
	movb	%al, 7(%rsp)                    # 1-byte Spill
	movq	$0, 16(%rsp)                    # 8-byte Folded Spill
	movq	%r9, 48(%rsp)                   # 8-byte Spill
	leaq	56(%rsp), %rbp
	movl	$512, %edx                      # imm = 0x200
	movq	%rbp, %rdi
	xorl	%esi, %esi
	callq	memset@PLT
	movq	%rbx, %rdi
	movq	%r15, %rsi
	movq	%r12, %rdx
	movq	%rbp, %rcx
	callq	"block::admit"
	testb	%al, %al
	je	.LBB76_75
# %bb.4:                                # %arm.1.i.i.i.i
	movq	%r12, %rdx
	shrq	%rdx
	imulq	$70, %rbx, %rax
	leaq	(%rdx,%rdx,4), %rcx
	leaq	(%rdx,%rcx,4), %rcx
	movq	%rdx, 24(%rsp)                  # 8-byte Spill
	addq	%rdx, %rcx
	addq	%rax, %rcx
	addq	$50, %rcx
	movl	$9, %eax
	cmpq	%rcx, %r14
	jb	.LBB76_73
# %bb.5:                                # %join.3.i.i.i.i.i
	movq	%rbx, %rbp
	movq	%r12, 40(%rsp)                  # 8-byte Spill
	xorl	%eax, %eax
	movb	%r13b, %al
	shll	$12, %eax
	movq	%rax, 32(%rsp)                  # 8-byte Spill
	movq	8(%rsp), %rcx                   # 8-byte Reload
	leaq	(%rcx,%rax), %r12
	testq	%r14, %r14
	je	.LBB76_6
# %bb.7:                                # %join.5.i.preheader.i.i.i.i.i.i
	leaq	-1(%r14), %rax
	cmpq	$2, %rax
	movl	$2, %r13d
	cmovbq	%rax, %r13
	incq	%r13
	movq	%r12, %rdi
	movl	$10, %esi
	movq	%r13, %rdx
	callq	memset@PLT
	jmp	.LBB76_8
.LBB76_1:                               # %then.1.i.i.i
	leaq	56(%rsp), %r14
	movl	$512, %edx                      # imm = 0x200
	movq	%r14, %rdi
	xorl	%esi, %esi
	callq	memset@PLT
	movq	%rbx, %rdi
	movq	%r15, %rsi
	movq	%r12, %rdx
	movq	%r14, %rcx
	callq	"block::admit"
	testb	%al, %al
	je	.LBB76_75
# %bb.2:                                # %"block::check.exit.thread.i.i.i.i"
	movl	$9, %eax
	jmp	.LBB76_73
.LBB76_75:                              # %arm.2.i.i.i.i
	movq	%rbx, %rdi
	movq	%r15, %rsi
	movq	%r12, %rdx
	callq	"block::refusal"
	movq	%rax, %rcx
	movq	%rdx, %rax
	movzbl	%cl, %ecx
	shlq	$8, %rax
	orq	%rcx, %rax
	jmp	.LBB76_73
.LBB76_6:
	xorl	%r13d, %r13d
.LBB76_8:                               # %"text::writing::put.exit.i.i.i.i.i.i"
	movq	%rbp, %rbx
	movabsq	$1844674407370955162, %rdi      # imm = 0x199999999999999A
	movabsq	$-3689348814741910323, %r8      # imm = 0xCCCCCCCCCCCCCCCD
	cmpq	$100, %rbp
	jae	.LBB76_9
# %bb.10:                               # %"text::writing::digit_or_blank.exit.i.i.i.i.i.i.i"
	movb	$32, %cl
	cmpq	$10, %rbx
	jae	.LBB76_12
# %bb.11:
	movb	$32, %sil
	jmp	.LBB76_14
.LBB76_9:                               # %"text::writing::digit_or_blank.exit.thread.i.i.i.i.i.i.i"
	movq	%rbx, %rax
	shrq	$2, %rax
	movabsq	$2951479051793528259, %rcx      # imm = 0x28F5C28F5C28F5C3
	mulq	%rcx
	movq	%rdx, %rcx
	shrq	$2, %rcx
	movq	%rcx, %rax
	mulq	%rdi
	addl	%edx, %edx
	leal	(%rdx,%rdx,4), %eax
	subl	%eax, %ecx
	orb	$48, %cl
	movq	%rbx, %rax
	mulq	%r8
	movq	%rdx, %rsi
	shrq	$3, %rsi
	jmp	.LBB76_13
.LBB76_12:
	imull	$205, %ebx, %eax
	movzwl	%ax, %esi
	shrl	$11, %esi
.LBB76_13:                              # %else.2.i2.i.i.i.i.i.i.i
	movq	%rsi, %rax
	mulq	%rdi
	addl	%edx, %edx
	leal	(%rdx,%rdx,4), %eax
	subl	%eax, %esi
	orb	$48, %sil
.LBB76_14:                              # %"text::writing::digit_or_blank.exit7.i.i.i.i.i.i.i"
	movq	%rbx, %rax
	mulq	%r8
	shrl	$2, %edx
	andl	$-2, %edx
	leal	(%rdx,%rdx,4), %eax
	movl	%ebx, %edx
	subl	%eax, %edx
	orb	$48, %dl
	movb	%cl, 56(%rsp)
	movb	%sil, 57(%rsp)
	movb	%dl, 58(%rsp)
	cmpq	%r14, %r13
	jae	.LBB76_16
# %bb.15:                               # %join.5.i.preheader.i.i.i.i.i.i.i
	leaq	(%r12,%r13), %rdi
	movq	%r13, %rax
	notq	%rax
	addq	%r14, %rax
	cmpq	$2, %rax
	movl	$2, %ebp
	cmovbq	%rax, %rbp
	leaq	1(%rbp), %rdx
	leaq	56(%rsp), %rsi
	callq	memcpy@PLT
	movabsq	$-3689348814741910323, %r8      # imm = 0xCCCCCCCCCCCCCCCD
	movabsq	$1844674407370955162, %rdi      # imm = 0x199999999999999A
	addq	%rbp, %r13
	incq	%r13
.LBB76_16:                              # %"text::writing::put_three.exit.i.i.i.i.i.i"
	movq	40(%rsp), %rsi                  # 8-byte Reload
	cmpq	$200, %rsi
	jae	.LBB76_17
# %bb.18:                               # %"text::writing::digit_or_blank.exit.i31.i.i.i.i.i.i"
	movb	$32, %cl
	cmpq	$20, %rsi
	jae	.LBB76_20
# %bb.19:
	movb	$32, %sil
	jmp	.LBB76_22
.LBB76_17:                              # %"text::writing::digit_or_blank.exit.thread.i6.i.i.i.i.i.i"
	movq	%rsi, %rax
	shrq	$3, %rax
	movabsq	$2951479051793528259, %rcx      # imm = 0x28F5C28F5C28F5C3
	mulq	%rcx
	movq	%rdx, %rcx
	shrq	$2, %rcx
	movq	%rcx, %rax
	mulq	%rdi
	addl	%edx, %edx
	leal	(%rdx,%rdx,4), %eax
	subl	%eax, %ecx
	orb	$48, %cl
	movq	%rsi, %rax
	mulq	%r8
	movq	%rdx, %rsi
	shrq	$4, %rsi
	jmp	.LBB76_21
.LBB76_20:
	imull	$205, 24(%rsp), %eax            # 4-byte Folded Reload
	movzwl	%ax, %esi
	shrl	$11, %esi
.LBB76_21:                              # %else.2.i2.i12.i.i.i.i.i.i
	movq	%rsi, %rax
	mulq	%rdi
	addl	%edx, %edx
	leal	(%rdx,%rdx,4), %eax
	subl	%eax, %esi
	orb	$48, %sil
.LBB76_22:                              # %"text::writing::digit_or_blank.exit7.i18.i.i.i.i.i.i"
	movabsq	$7378697629483820647, %rdx      # imm = 0x6666666666666667
	movq	24(%rsp), %rdi                  # 8-byte Reload
	movq	%rdi, %rax
	mulq	%rdx
	shrl	%edx
	andl	$-2, %edx
	leal	(%rdx,%rdx,4), %eax
	movl	%edi, %edx
	subl	%eax, %edx
	orb	$48, %dl
	movb	%cl, 56(%rsp)
	movb	%sil, 57(%rsp)
	movb	%dl, 58(%rsp)
	cmpq	%r14, %r13
	jae	.LBB76_24
# %bb.23:                               # %join.5.i.preheader.i28.i.i.i.i.i.i
	leaq	(%r12,%r13), %rdi
	movq	%r13, %rax
	notq	%rax
	addq	%r14, %rax
	cmpq	$2, %rax
	movl	$2, %ebp
	cmovbq	%rax, %rbp
	leaq	1(%rbp), %rdx
	leaq	56(%rsp), %rsi
	callq	memcpy@PLT
	addq	%rbp, %r13
	incq	%r13
.LBB76_24:                              # %"text::writing::put_three.exit36.i.i.i.i.i.i"
	movq	8(%rsp), %r8                    # 8-byte Reload
	movzbl	7(%rsp), %r9d                   # 1-byte Folded Reload
	cmpq	%r14, %r13
	jae	.LBB76_32
# %bb.25:                               # %join.5.i39.i.i.i.i.i.i.preheader
	movq	%r13, %rax
	notq	%rax
	addq	%r14, %rax
	cmpq	$33, %rax
	movl	$33, %ecx
	cmovbq	%rax, %rcx
	cmpq	$15, %rax
	jae	.LBB76_27
# %bb.26:
	xorl	%eax, %eax
	jmp	.LBB76_30
.LBB76_27:                              # %vector.ph
	incq	%rcx
	movl	%ecx, %eax
	andl	$112, %eax
	leaq	(%r12,%r13), %rdx
	addq	%rax, %r13
	xorl	%esi, %esi
	.p2align	4
.LBB76_28:                              # %vector.body
                                        # =>This Inner Loop Header: Depth=1
	leaq	.Lstatic.4(%rip), %rdi
	movups	(%rsi,%rdi), %xmm0
	movups	%xmm0, (%rdx,%rsi)
	addq	$16, %rsi
	cmpq	%rsi, %rax
	jne	.LBB76_28
# %bb.29:                               # %middle.block
	cmpq	%rax, %rcx
	je	.LBB76_32
	.p2align	4
.LBB76_30:                              # %join.5.i39.i.i.i.i.i.i
                                        # =>This Inner Loop Header: Depth=1
	leaq	.Lstatic.4(%rip), %rcx
	movzbl	(%rax,%rcx), %ecx
	movb	%cl, (%r12,%r13)
	incq	%r13
	cmpq	$32, %rax
	ja	.LBB76_32
# %bb.31:                               # %join.5.i39.i.i.i.i.i.i
                                        #   in Loop: Header=BB76_30 Depth=1
	incq	%rax
	cmpq	%r14, %r13
	jb	.LBB76_30
.LBB76_32:                              # %"molwriter::put_counts.exit.i.i.i.i.i"
	movq	16(%rsp), %rax                  # 8-byte Reload
	movb	%r9b, %al
	movq	%rax, 16(%rsp)                  # 8-byte Spill
	testq	%rbx, %rbx
	je	.LBB76_43
# %bb.33:                               # %join.5.i.i.i.i.i.i.preheader
	movq	32(%rsp), %rax                  # 8-byte Reload
	addq	%r8, %rax
	addq	$16, %rax
	xorl	%ecx, %ecx
	jmp	.LBB76_34
	.p2align	4
.LBB76_42:                              # %"text::writing::put.exit.i13.i.i.i.i.i"
                                        #   in Loop: Header=BB76_34 Depth=1
	incq	%rcx
	cmpq	%rbx, %rcx
	je	.LBB76_43
.LBB76_34:                              # %join.5.i.i.i.i.i.i
                                        # =>This Loop Header: Depth=1
                                        #     Child Loop BB76_38 Depth 2
                                        #     Child Loop BB76_40 Depth 2
	cmpq	%r14, %r13
	jae	.LBB76_42
# %bb.35:                               # %join.5.i.i.i.i.i.i.i.preheader
                                        #   in Loop: Header=BB76_34 Depth=1
	movq	%r13, %rdx
	notq	%rdx
	addq	%r14, %rdx
	cmpq	$69, %rdx
	movl	$69, %esi
	cmovbq	%rdx, %rsi
	cmpq	$31, %rdx
	jae	.LBB76_37
# %bb.36:                               #   in Loop: Header=BB76_34 Depth=1
	xorl	%edx, %edx
	jmp	.LBB76_40
	.p2align	4
.LBB76_37:                              # %vector.ph7
                                        #   in Loop: Header=BB76_34 Depth=1
	incq	%rsi
	movl	%esi, %edx
	andl	$224, %edx
	leaq	(%rax,%r13), %rdi
	addq	%rdx, %r13
	xorl	%r8d, %r8d
	.p2align	4
.LBB76_38:                              # %vector.body10
                                        #   Parent Loop BB76_34 Depth=1
                                        # =>  This Inner Loop Header: Depth=2
	leaq	.Lstatic.5(%rip), %r9
	movups	(%r8,%r9), %xmm0
	movups	16(%r8,%r9), %xmm1
	movups	%xmm0, -16(%rdi,%r8)
	movups	%xmm1, (%rdi,%r8)
	addq	$32, %r8
	cmpq	%r8, %rdx
	jne	.LBB76_38
# %bb.39:                               # %middle.block16
                                        #   in Loop: Header=BB76_34 Depth=1
	cmpq	%rdx, %rsi
	je	.LBB76_42
	.p2align	4
.LBB76_40:                              # %join.5.i.i.i.i.i.i.i
                                        #   Parent Loop BB76_34 Depth=1
                                        # =>  This Inner Loop Header: Depth=2
	leaq	.Lstatic.5(%rip), %rsi
	movzbl	(%rdx,%rsi), %esi
	movb	%sil, (%r12,%r13)
	incq	%r13
	cmpq	$68, %rdx
	ja	.LBB76_42
# %bb.41:                               # %join.5.i.i.i.i.i.i.i
                                        #   in Loop: Header=BB76_40 Depth=2
	incq	%rdx
	cmpq	%r14, %r13
	jb	.LBB76_40
	jmp	.LBB76_42
.LBB76_43:                              # %"molwriter::put_atoms.exit.i.i.i.i.i"
	movq	16(%rsp), %rax                  # 8-byte Reload
	shll	$12, %eax
	movq	%rax, 16(%rsp)                  # 8-byte Spill
	cmpq	$0, 24(%rsp)                    # 8-byte Folded Reload
	je	.LBB76_63
# %bb.44:                               # %join.5.i16.i.i.i.i.i.preheader
	xorl	%ebx, %ebx
	movq	%r15, 8(%rsp)                   # 8-byte Spill
	jmp	.LBB76_45
	.p2align	4
.LBB76_74:                              # %vector.ph23
                                        #   in Loop: Header=BB76_45 Depth=1
	movaps	.LCPI76_0(%rip), %xmm0          # xmm0 = [32,32,49,32,32,48,32,32,48,32,32,48,32,32,48,10]
	movups	%xmm0, (%r12,%r13)
	addq	$16, %r13
.LBB76_62:                              # %"molwriter::put_bond.exit.i.i.i.i.i.i"
                                        #   in Loop: Header=BB76_45 Depth=1
	incq	%rbx
	cmpq	24(%rsp), %rbx                  # 8-byte Folded Reload
	je	.LBB76_63
.LBB76_45:                              # %join.5.i16.i.i.i.i.i
                                        # =>This Loop Header: Depth=1
                                        #     Child Loop BB76_60 Depth 2
	movzbl	(%r15,%rbx,2), %eax
	movzbl	%al, %edx
	cmpb	$100, %al
	jae	.LBB76_46
# %bb.47:                               # %"text::writing::digit_or_blank.exit.i.i.i.i.i.i.i.i"
                                        #   in Loop: Header=BB76_45 Depth=1
	movb	$32, %cl
	movb	$32, %sil
	cmpb	$10, %al
	jae	.LBB76_48
	jmp	.LBB76_49
	.p2align	4
.LBB76_46:                              # %"text::writing::digit_or_blank.exit.thread.i.i.i.i.i.i.i.i"
                                        #   in Loop: Header=BB76_45 Depth=1
	leal	(%rdx,%rdx,4), %ecx
	leal	(%rdx,%rcx,8), %ecx
	shrl	$12, %ecx
	orb	$48, %cl
.LBB76_48:                              # %else.2.i2.i.i.i.i.i.i.i.i
                                        #   in Loop: Header=BB76_45 Depth=1
	imull	$205, %edx, %esi
	shrl	$11, %esi
	leal	(%rsi,%rsi,4), %edi
	leal	(%rdi,%rdi,4), %edi
	addl	%esi, %edi
	shrl	$7, %edi
	andl	$6, %edi
	leal	(%rdi,%rdi,4), %edi
	subb	%dil, %sil
	orb	$48, %sil
.LBB76_49:                              # %"text::writing::digit_or_blank.exit7.i.i.i.i.i.i.i.i"
                                        #   in Loop: Header=BB76_45 Depth=1
	movzbl	1(%r15,%rbx,2), %ebp
	imull	$205, %edx, %edx
	shrl	$10, %edx
	andl	$-2, %edx
	leal	(%rdx,%rdx,4), %edx
	subb	%dl, %al
	orb	$48, %al
	movb	%cl, 56(%rsp)
	movb	%sil, 57(%rsp)
	movb	%al, 58(%rsp)
	cmpq	%r14, %r13
	jae	.LBB76_51
# %bb.50:                               # %join.5.i.preheader.i.i.i.i.i.i.i.i
                                        #   in Loop: Header=BB76_45 Depth=1
	leaq	(%r12,%r13), %rdi
	movq	%r13, %rax
	notq	%rax
	addq	%r14, %rax
	cmpq	$2, %rax
	movl	$2, %r15d
	cmovbq	%rax, %r15
	leaq	1(%r15), %rdx
	leaq	56(%rsp), %rsi
	callq	memcpy@PLT
	addq	%r15, %r13
	incq	%r13
.LBB76_51:                              # %"text::writing::put_three.exit.i.i.i.i.i.i.i"
                                        #   in Loop: Header=BB76_45 Depth=1
	movzbl	%bpl, %ecx
	cmpb	$100, %bpl
	jae	.LBB76_52
# %bb.53:                               # %"text::writing::digit_or_blank.exit.i31.i.i.i.i.i.i.i"
                                        #   in Loop: Header=BB76_45 Depth=1
	movb	$32, %al
	movb	$32, %dl
	cmpb	$10, %bpl
	jae	.LBB76_54
	jmp	.LBB76_55
	.p2align	4
.LBB76_52:                              # %"text::writing::digit_or_blank.exit.thread.i7.i.i.i.i.i.i.i"
                                        #   in Loop: Header=BB76_45 Depth=1
	leal	(%rcx,%rcx,4), %eax
	leal	(%rcx,%rax,8), %eax
	shrl	$12, %eax
	orb	$48, %al
.LBB76_54:                              # %else.2.i2.i12.i.i.i.i.i.i.i
                                        #   in Loop: Header=BB76_45 Depth=1
	imull	$205, %ecx, %edx
	shrl	$11, %edx
	leal	(%rdx,%rdx,4), %esi
	leal	(%rsi,%rsi,4), %esi
	addl	%edx, %esi
	shrl	$7, %esi
	andl	$6, %esi
	leal	(%rsi,%rsi,4), %esi
	subb	%sil, %dl
	orb	$48, %dl
.LBB76_55:                              # %"text::writing::digit_or_blank.exit7.i18.i.i.i.i.i.i.i"
                                        #   in Loop: Header=BB76_45 Depth=1
	imull	$205, %ecx, %ecx
	shrl	$10, %ecx
	andl	$-2, %ecx
	leal	(%rcx,%rcx,4), %ecx
	subb	%cl, %bpl
	orb	$48, %bpl
	movb	%al, 56(%rsp)
	movb	%dl, 57(%rsp)
	movb	%bpl, 58(%rsp)
	cmpq	%r14, %r13
	jae	.LBB76_57
# %bb.56:                               # %join.5.i.preheader.i28.i.i.i.i.i.i.i
                                        #   in Loop: Header=BB76_45 Depth=1
	leaq	(%r12,%r13), %rdi
	movq	%r13, %rax
	notq	%rax
	addq	%r14, %rax
	cmpq	$2, %rax
	movl	$2, %r15d
	cmovbq	%rax, %r15
	leaq	1(%r15), %rdx
	leaq	56(%rsp), %rsi
	callq	memcpy@PLT
	addq	%r15, %r13
	incq	%r13
.LBB76_57:                              # %"text::writing::put_three.exit35.i.i.i.i.i.i.i"
                                        #   in Loop: Header=BB76_45 Depth=1
	movq	8(%rsp), %r15                   # 8-byte Reload
	movq	%r13, %rax
	subq	%r14, %rax
	jae	.LBB76_62
# %bb.58:                               # %join.5.i.i.i.i.i.i.i.i.preheader
                                        #   in Loop: Header=BB76_45 Depth=1
	cmpq	$-15, %rax
	jb	.LBB76_74
# %bb.59:                               # %join.5.i.i.i.i.i.i.i.i.preheader36
                                        #   in Loop: Header=BB76_45 Depth=1
	xorl	%eax, %eax
	.p2align	4
.LBB76_60:                              # %join.5.i.i.i.i.i.i.i.i
                                        #   Parent Loop BB76_45 Depth=1
                                        # =>  This Inner Loop Header: Depth=2
	leaq	.Lstatic.6(%rip), %rcx
	movzbl	(%rax,%rcx), %ecx
	movb	%cl, (%r12,%r13)
	incq	%r13
	cmpq	$14, %rax
	ja	.LBB76_62
# %bb.61:                               # %join.5.i.i.i.i.i.i.i.i
                                        #   in Loop: Header=BB76_60 Depth=2
	incq	%rax
	cmpq	%r14, %r13
	jb	.LBB76_60
	jmp	.LBB76_62
.LBB76_63:                              # %"molwriter::put_bonds.exit.i.i.i.i.i"
	cmpq	%r14, %r13
	jae	.LBB76_71
# %bb.64:                               # %join.5.i22.i.i.i.i.i
	movb	$77, (%r12,%r13)
	leaq	1(%r13), %rax
	cmpq	%r14, %rax
	jae	.LBB76_72
# %bb.65:                               # %join.5.i22.i.i.i.i.i.1
	movb	$32, 1(%r12,%r13)
	leaq	2(%r13), %rax
	cmpq	%r14, %rax
	jae	.LBB76_72
# %bb.66:                               # %join.5.i22.i.i.i.i.i.2
	movb	$32, 2(%r12,%r13)
	leaq	3(%r13), %rax
	cmpq	%r14, %rax
	jae	.LBB76_72
# %bb.67:                               # %join.5.i22.i.i.i.i.i.3
	movb	$69, 3(%r12,%r13)
	leaq	4(%r13), %rax
	cmpq	%r14, %rax
	jae	.LBB76_72
# %bb.68:                               # %join.5.i22.i.i.i.i.i.4
	movb	$78, 4(%r12,%r13)
	leaq	5(%r13), %rax
	cmpq	%r14, %rax
	jae	.LBB76_72
# %bb.69:                               # %join.5.i22.i.i.i.i.i.5
	movb	$68, 5(%r12,%r13)
	leaq	6(%r13), %rax
	cmpq	%r14, %rax
	jae	.LBB76_72
# %bb.70:                               # %join.5.i22.i.i.i.i.i.6
	movb	$10, 6(%r12,%r13)
	addq	$7, %r13
.LBB76_71:                              # %join.5.i.i.i11.i.i.i
	movq	%r13, %rax
.LBB76_72:                              # %join.5.i.i.i11.i.i.i
	movq	48(%rsp), %rcx                  # 8-byte Reload
	movq	16(%rsp), %rdx                  # 8-byte Reload
	movq	%rax, (%rcx,%rdx)
	xorl	%eax, %eax
.LBB76_73:                              # %"tteuyomal_c::texts::tteuyomal_write_molfile.exit"
	addq	$568, %rsp                      # imm = 0x238
	popq	%rbx
	popq	%r12
	popq	%r13
	popq	%r14
	popq	%r15
	popq	%rbp
	retq
.Lfunc_end76:
	.size	tteuyomal_write_molfile, .Lfunc_end76-tteuyomal_write_molfile
                                        # -- End function
	.section	.text.tteuyomal_write_neighbours,"ax",@progbits
	.globl	tteuyomal_write_neighbours      # -- Begin function tteuyomal_write_neighbours
	.p2align	4
	.type	tteuyomal_write_neighbours,@function
tteuyomal_write_neighbours:             # @tteuyomal_write_neighbours
# %bb.0:                                # %start
	pushq	%rbp
	pushq	%r15
	pushq	%r14
	pushq	%r13
	pushq	%r12
	pushq	%rbx
	subq	$1832, %rsp                     # imm = 0x728
	movq	%rdx, %r13
	movq	%rdi, %r12
	xorl	%ebp, %ebp
	testq	%rsi, %rsi
	sete	%bpl
	shll	$12, %ebp
	addq	%rsi, %rbp
	testq	%rcx, %rcx
	sete	%dl
	testq	%r9, %r9
	sete	%al
	cmpq	$0, 1888(%rsp)
	je	.LBB77_5
# %bb.1:                                # %join.3.i.i.i
	movb	%dl, 6(%rsp)                    # 1-byte Spill
	movb	%al, 7(%rsp)                    # 1-byte Spill
	movq	%rcx, 16(%rsp)                  # 8-byte Spill
	movq	%r8, 32(%rsp)                   # 8-byte Spill
	movq	%r9, 24(%rsp)                   # 8-byte Spill
	leaq	1320(%rsp), %rbx
	movl	$512, %edx                      # imm = 0x200
	movq	%rbx, %rdi
	xorl	%esi, %esi
	callq	memset@PLT
	movq	%r12, %rdi
	movq	%rbp, %rsi
	movq	%r13, %rdx
	movq	%rbx, %rcx
	callq	"block::admit"
	testb	%al, %al
	je	.LBB77_7
# %bb.2:                                # %arm.3.i.i.i.i
	leaq	40(%rsp), %rdi
	movl	$1280, %edx                     # imm = 0x500
	xorl	%esi, %esi
	callq	memset@PLT
	cmpb	$10, %r12b
	jae	.LBB77_8
# %bb.3:                                # %"neighbours::writing::number.exit.i.i.i.i.i.i"
	movl	%r12d, %eax
	orb	$48, %al
	movb	%al, 40(%rsp)
	movb	$10, 41(%rsp)
	movl	$2, %ebx
	testq	%r12, %r12
	jne	.LBB77_12
# %bb.4:                                # %join.5.i.preheader.thread.i.i.i.i.i.i
	movb	$48, 42(%rsp)
	movl	$3, %eax
	jmp	.LBB77_67
.LBB77_5:                               # %then.1.i.i.i
	leaq	40(%rsp), %rbx
	movl	$512, %edx                      # imm = 0x200
	movq	%rbx, %rdi
	xorl	%esi, %esi
	callq	memset@PLT
	movq	%r12, %rdi
	movq	%rbp, %rsi
	movq	%r13, %rdx
	movq	%rbx, %rcx
	callq	"block::admit"
	testb	%al, %al
	jne	.LBB77_6
.LBB77_7:                               # %arm.2.i.i.i.i
	movq	%r12, %rdi
	movq	%rbp, %rsi
	movq	%r13, %rdx
	callq	"block::refusal"
	movq	%rax, %rcx
	movq	%rdx, %rax
	movzbl	%cl, %ecx
	shlq	$8, %rax
	orq	%rcx, %rax
	jmp	.LBB77_72
.LBB77_8:                               # %join.3.i.i.i.i.i.i.i.i
	movzbl	%r12b, %edx
	imull	$205, %edx, %esi
	movl	%esi, %edi
	shrl	$11, %edi
	leal	(%rdi,%rdi,4), %eax
	leal	(%rax,%rax,4), %eax
	addl	%edi, %eax
	shrl	$7, %eax
	andl	$6, %eax
	leal	(%rax,%rax,4), %ecx
	movl	%edi, %eax
	subb	%cl, %al
	orb	$48, %al
	cmpb	$99, %r12b
	ja	.LBB77_10
# %bb.9:                                # %then.4.i.i.i.i.i.i.i.i
	leaq	42(%rsp), %rcx
	shrl	$10, %esi
	andl	$-2, %esi
	leal	(%rsi,%rsi,4), %esi
	movl	%eax, %edx
	movl	%r12d, %eax
	subb	%sil, %al
	orb	$48, %al
	movl	$3, %ebx
	jmp	.LBB77_11
.LBB77_10:                              # %join.6.i.i.i.i.i.i.i.i
	leaq	43(%rsp), %rcx
	addl	%edi, %edi
	leal	(%rdi,%rdi,4), %esi
	movl	%r12d, %edi
	subb	%sil, %dil
	leal	(%rdx,%rdx,4), %esi
	leal	(%rdx,%rsi,8), %edx
	shrl	$12, %edx
	orb	$48, %dl
	orb	$48, %dil
	movb	%dil, 42(%rsp)
	movl	$4, %ebx
.LBB77_11:                              # %"neighbours::writing::number.exit.thread.i.i.i.i.i.i"
	movb	%dl, 40(%rsp)
	movb	%al, 41(%rsp)
	movb	$10, (%rcx)
.LBB77_12:                              # %join.5.lr.ph.i.i.lr.ph.i.i.i.i.i.i.i
	movq	%r12, %r9
	andq	$-2, %r9
	movl	$1, %ebp
	movq	%r9, 8(%rsp)                    # 8-byte Spill
	jmp	.LBB77_15
	.p2align	4
.LBB77_13:                              # %"neighbours::writing::line.exit.i.i.i.i.i.i.i"
                                        #   in Loop: Header=BB77_15 Depth=1
	movq	8(%rsp), %r9                    # 8-byte Reload
.LBB77_14:                              # %"neighbours::writing::line.exit.i.i.i.i.i.i.i"
                                        #   in Loop: Header=BB77_15 Depth=1
	cmpq	%r12, %rbp
	leaq	1(%rbp), %rbp
	je	.LBB77_64
.LBB77_15:                              # %join.5.lr.ph.i.i.i.i.i.i.i.i.i
                                        # =>This Loop Header: Depth=1
                                        #     Child Loop BB77_20 Depth 2
                                        #     Child Loop BB77_47 Depth 2
	xorl	%esi, %esi
	cmpq	$1, %r12
	jne	.LBB77_18
# %bb.16:                               #   in Loop: Header=BB77_15 Depth=1
	movl	$1, %eax
	cmpq	%rax, %rbp
	jae	.LBB77_26
.LBB77_17:                              # %"neighbours::writing::is_greater.exit.i.i.i.i.i.i.i.i.i.i.epil"
                                        #   in Loop: Header=BB77_15 Depth=1
	decb	%al
	movl	$1, %edx
	movl	%eax, %ecx
	shlq	%cl, %rdx
	xorl	%eax, %eax
	testq	%rdx, 1312(%rsp,%rbp,8)
	setne	%al
	jmp	.LBB77_27
	.p2align	4
.LBB77_18:                              # %join.5.i.i.i.i.i.i.i.i.i.preheader
                                        #   in Loop: Header=BB77_15 Depth=1
	xorl	%eax, %eax
	jmp	.LBB77_20
	.p2align	4
.LBB77_19:                              # %"neighbours::writing::is_greater.exit.i.i.i.i.i.i.i.i.i.i.1"
                                        #   in Loop: Header=BB77_20 Depth=2
	movl	$1, %r8d
	movl	%edx, %ecx
	shlq	%cl, %r8
	xorl	%ecx, %ecx
	testq	%r8, 1312(%rsp,%rbp,8)
	setne	%cl
	addq	%rdi, %rsi
	addq	%rcx, %rsi
	cmpq	%rax, %r9
	je	.LBB77_24
.LBB77_20:                              # %join.5.i.i.i.i.i.i.i.i.i
                                        #   Parent Loop BB77_15 Depth=1
                                        # =>  This Inner Loop Header: Depth=2
	leaq	1(%rax), %rdx
	cmpq	%rdx, %rbp
	jae	.LBB77_22
# %bb.21:                               # %"neighbours::writing::is_greater.exit.i.i.i.i.i.i.i.i.i.i"
                                        #   in Loop: Header=BB77_20 Depth=2
	movl	$1, %r8d
	movl	%eax, %ecx
	shlq	%cl, %r8
	xorl	%edi, %edi
	testq	%r8, 1312(%rsp,%rbp,8)
	setne	%dil
	addq	$2, %rax
	cmpq	%rax, %rbp
	jb	.LBB77_19
	jmp	.LBB77_23
	.p2align	4
.LBB77_22:                              #   in Loop: Header=BB77_20 Depth=2
	xorl	%edi, %edi
	addq	$2, %rax
	cmpq	%rax, %rbp
	jb	.LBB77_19
.LBB77_23:                              #   in Loop: Header=BB77_20 Depth=2
	xorl	%ecx, %ecx
	addq	%rdi, %rsi
	addq	%rcx, %rsi
	cmpq	%rax, %r9
	jne	.LBB77_20
.LBB77_24:                              # %"neighbours::writing::count.exit.i.i.i.i.i.i.i.i.unr-lcssa"
                                        #   in Loop: Header=BB77_15 Depth=1
	testb	$1, %r12b
	je	.LBB77_28
# %bb.25:                               #   in Loop: Header=BB77_15 Depth=1
	incq	%rax
	cmpq	%rax, %rbp
	jb	.LBB77_17
.LBB77_26:                              #   in Loop: Header=BB77_15 Depth=1
	xorl	%eax, %eax
.LBB77_27:                              # %"neighbours::writing::one_if_greater.exit.i.i.i.i.i.i.i.i.i.epil"
                                        #   in Loop: Header=BB77_15 Depth=1
	addq	%rax, %rsi
.LBB77_28:                              # %"neighbours::writing::count.exit.i.i.i.i.i.i.i.i"
                                        #   in Loop: Header=BB77_15 Depth=1
	testq	%rsi, %rsi
	je	.LBB77_14
# %bb.29:                               # %join.3.i.i5.i.i.i.i.i.i
                                        #   in Loop: Header=BB77_15 Depth=1
	cmpb	$10, %bpl
	jae	.LBB77_32
# %bb.30:                               # %then.1.i.i.i.i.i.i.i.i.i.i
                                        #   in Loop: Header=BB77_15 Depth=1
	cmpq	$1279, %rbx                     # imm = 0x4FF
	ja	.LBB77_41
# %bb.31:                               # %then.1.i.i.i.i.i.i.i.i.i.i.i
                                        #   in Loop: Header=BB77_15 Depth=1
	movl	%ebp, %eax
	orb	$48, %al
	movb	%al, 40(%rsp,%rbx)
	incq	%rbx
	jmp	.LBB77_41
	.p2align	4
.LBB77_32:                              # %join.3.i.i.i.i.i.i.i.i.i.i
                                        #   in Loop: Header=BB77_15 Depth=1
	movzbl	%bpl, %ecx
	imull	$205, %ecx, %edx
	movl	%edx, %esi
	shrl	$11, %esi
	leal	(%rsi,%rsi,4), %eax
	leal	(%rax,%rax,4), %eax
	addl	%esi, %eax
	shrl	$7, %eax
	andl	$6, %eax
	leal	(%rax,%rax,4), %edi
	movl	%esi, %eax
	subb	%dil, %al
	orb	$48, %al
	cmpb	$99, %bpl
	ja	.LBB77_36
# %bb.33:                               # %then.4.i.i.i.i.i.i.i.i.i.i
                                        #   in Loop: Header=BB77_15 Depth=1
	shrl	$10, %edx
	andl	$-2, %edx
	leal	(%rdx,%rdx,4), %edx
	movl	%ebp, %ecx
	subb	%dl, %cl
	orb	$48, %cl
	cmpq	$1279, %rbx                     # imm = 0x4FF
	ja	.LBB77_41
# %bb.39:                               # %join.5.i.preheader.i.i.i.i.i.i.i.i.i.i
                                        #   in Loop: Header=BB77_15 Depth=1
	movb	%al, 40(%rsp,%rbx)
	movl	$1280, %eax                     # imm = 0x500
	je	.LBB77_42
# %bb.40:                               # %common.ret.loopexit.loopexit.i.i.i.i.i.i.i.i.i.i
                                        #   in Loop: Header=BB77_15 Depth=1
	movb	%cl, 41(%rsp,%rbx)
	addq	$2, %rbx
	jmp	.LBB77_41
.LBB77_36:                              # %join.6.i.i.i.i.i.i.i.i.i.i
                                        #   in Loop: Header=BB77_15 Depth=1
	addl	%esi, %esi
	leal	(%rsi,%rsi,4), %edx
	movl	%ebp, %esi
	subb	%dl, %sil
	leal	(%rcx,%rcx,4), %edx
	leal	(%rcx,%rdx,8), %ecx
	shrl	$12, %ecx
	orb	$48, %cl
	orb	$48, %sil
	movb	%cl, 3(%rsp)
	movb	%al, 4(%rsp)
	movb	%sil, 5(%rsp)
	cmpq	$1279, %rbx                     # imm = 0x4FF
	ja	.LBB77_41
# %bb.37:                               # %join.5.i28.preheader.i.i.i.i.i.i.i.i.i.i
                                        #   in Loop: Header=BB77_15 Depth=1
	leaq	(%rsp,%rbx), %rdi
	addq	$40, %rdi
	movl	$1279, %eax                     # imm = 0x4FF
	subq	%rbx, %rax
	cmpq	$2, %rax
	movl	$2, %r14d
	cmovbq	%rax, %r14
	leaq	1(%r14), %rdx
	leaq	3(%rsp), %rsi
	callq	memcpy@PLT
	leaq	(%r14,%rbx), %rax
	incq	%rax
	jmp	.LBB77_42
	.p2align	4
.LBB77_41:                              # %"neighbours::writing::number.exit.i.i.i.i.i.i.i.i"
                                        #   in Loop: Header=BB77_15 Depth=1
	movq	%rbx, %rax
.LBB77_42:                              # %"neighbours::writing::number.exit.i.i.i.i.i.i.i.i"
                                        #   in Loop: Header=BB77_15 Depth=1
	movb	$1, %r15b
	xorl	%r14d, %r14d
	movq	%rax, %rbx
	jmp	.LBB77_47
.LBB77_55:                              # %then.4.i.i.i.i.i.i.i.i.i.i.i.i
                                        #   in Loop: Header=BB77_47 Depth=2
	addq	%rdx, %rax
	cmpq	$1279, %rbx                     # imm = 0x4FF
	jbe	.LBB77_60
.LBB77_44:                              # %"neighbours::writing::number.exit.i.i.i.i.i.i.i.i.i.i"
                                        #   in Loop: Header=BB77_47 Depth=2
	movq	%rbx, %rcx
.LBB77_45:                              # %"neighbours::writing::number.exit.i.i.i.i.i.i.i.i.i.i"
                                        #   in Loop: Header=BB77_47 Depth=2
	movq	%rcx, %rbx
.LBB77_46:                              # %"neighbours::writing::neighbour.exit.i.i.i.i.i.i.i.i.i"
                                        #   in Loop: Header=BB77_47 Depth=2
	incb	%r15b
	cmpq	%r14, %r12
	je	.LBB77_62
.LBB77_47:                              # %join.5.i8.i.i.i.i.i.i.i.i
                                        #   Parent Loop BB77_15 Depth=1
                                        # =>  This Inner Loop Header: Depth=2
	movq	%r14, %rax
	incq	%r14
	cmpq	%r14, %rbp
	jae	.LBB77_46
# %bb.48:                               # %"neighbours::writing::is_greater.exit.i.i13.i.i.i.i.i.i.i.i"
                                        #   in Loop: Header=BB77_47 Depth=2
	movq	1312(%rsp,%rbp,8), %rcx
	btq	%rax, %rcx
	jae	.LBB77_46
# %bb.49:                               # %then.1.i.i17.i.i.i.i.i.i.i.i
                                        #   in Loop: Header=BB77_47 Depth=2
	cmpq	$1279, %rbx                     # imm = 0x4FF
	ja	.LBB77_51
# %bb.50:                               # %then.1.i4.i.i.i.i.i.i.i.i.i.i
                                        #   in Loop: Header=BB77_47 Depth=2
	movb	$32, 40(%rsp,%rbx)
	incq	%rbx
.LBB77_51:                              # %"text::writing::put_byte.exit.i.i.i.i.i.i.i.i.i.i"
                                        #   in Loop: Header=BB77_47 Depth=2
	leaq	1(%rax), %rcx
	cmpb	$10, %cl
	jae	.LBB77_54
# %bb.52:                               # %then.1.i.i.i.i.i.i.i.i.i.i.i.i
                                        #   in Loop: Header=BB77_47 Depth=2
	cmpq	$1279, %rbx                     # imm = 0x4FF
	ja	.LBB77_44
# %bb.43:                               # %then.1.i.i.i.i.i.i.i.i.i.i.i.i.i
                                        #   in Loop: Header=BB77_47 Depth=2
	addb	$49, %al
	movb	%al, 40(%rsp,%rbx)
	incq	%rbx
	jmp	.LBB77_44
.LBB77_54:                              # %join.3.i.i.i.i.i.i.i.i.i.i.i.i
                                        #   in Loop: Header=BB77_47 Depth=2
	movzbl	%r15b, %edx
	imull	$205, %edx, %edx
	shrl	$10, %edx
	andl	$-2, %edx
	leal	(%rdx,%rdx,4), %edx
	movb	$48, %sil
	subb	%dl, %sil
	movzbl	%sil, %edx
	incq	%rdx
	movzbl	%cl, %esi
	imull	$205, %esi, %esi
	shrl	$11, %esi
	leal	(%rsi,%rsi,4), %edi
	leal	(%rdi,%rdi,4), %edi
	addl	%esi, %edi
	shrl	$7, %edi
	andl	$6, %edi
	leal	(%rdi,%rdi,4), %edi
	subb	%dil, %sil
	orb	$48, %sil
	cmpb	$99, %cl
	jbe	.LBB77_55
# %bb.57:                               # %join.6.i.i.i.i.i.i.i.i.i.i.i.i
                                        #   in Loop: Header=BB77_47 Depth=2
	movzbl	%cl, %ecx
	leal	(%rcx,%rcx,4), %edi
	leal	(%rcx,%rdi,8), %ecx
	shrl	$12, %ecx
	orb	$48, %cl
	addl	%edx, %eax
	movb	%cl, 3(%rsp)
	movb	%sil, 4(%rsp)
	movb	%al, 5(%rsp)
	cmpq	$1279, %rbx                     # imm = 0x4FF
	ja	.LBB77_44
# %bb.58:                               # %join.5.i28.preheader.i.i.i.i.i.i.i.i.i.i.i.i
                                        #   in Loop: Header=BB77_47 Depth=2
	leaq	(%rsp,%rbx), %rdi
	addq	$40, %rdi
	movl	$1279, %eax                     # imm = 0x4FF
	subq	%rbx, %rax
	cmpq	$2, %rax
	movl	$2, %r13d
	cmovbq	%rax, %r13
	leaq	1(%r13), %rdx
	leaq	3(%rsp), %rsi
	callq	memcpy@PLT
	leaq	(%rbx,%r13), %rcx
	incq	%rcx
	jmp	.LBB77_45
.LBB77_60:                              # %join.5.i.preheader.i.i.i.i.i.i.i.i.i.i.i.i
                                        #   in Loop: Header=BB77_47 Depth=2
	movb	%sil, 40(%rsp,%rbx)
	movl	$1280, %ecx                     # imm = 0x500
	je	.LBB77_45
# %bb.61:                               # %common.ret.loopexit.loopexit.i.i.i.i.i.i.i.i.i.i.i.i
                                        #   in Loop: Header=BB77_47 Depth=2
	movb	%al, 41(%rsp,%rbx)
	addq	$2, %rbx
	jmp	.LBB77_44
	.p2align	4
.LBB77_62:                              # %"neighbours::writing::neighbours.exit.i.i.i.i.i.i.i.i"
                                        #   in Loop: Header=BB77_15 Depth=1
	cmpq	$1279, %rbx                     # imm = 0x4FF
	ja	.LBB77_13
# %bb.63:                               # %join.5.i20.i.i.i.preheader.i.i.i.i.i
                                        #   in Loop: Header=BB77_15 Depth=1
	leaq	(%rsp,%rbx), %rdi
	addq	$40, %rdi
	movl	$1279, %eax                     # imm = 0x4FF
	subq	%rbx, %rax
	cmpq	$2, %rax
	movl	$2, %r14d
	cmovbq	%rax, %r14
	leaq	1(%r14), %rdx
	leaq	.Lstatic.8(%rip), %rsi
	callq	memcpy@PLT
	addq	%r14, %rbx
	incq	%rbx
	jmp	.LBB77_13
.LBB77_64:                              # %"neighbours::writing::lines.exit.i.i.i.i.i.i"
	cmpq	$1279, %rbx                     # imm = 0x4FF
	ja	.LBB77_68
# %bb.65:                               # %join.5.i.preheader.i.i.i.i.i.i
	movb	$48, 40(%rsp,%rbx)
	movl	$1280, %r14d                    # imm = 0x500
	je	.LBB77_69
# %bb.66:
	leaq	1(%rbx), %rax
.LBB77_67:                              # %"text::writing::put.exit.loopexit.loopexit.i.i.i.i.i.i"
	movb	$10, 40(%rsp,%rax)
	addq	$2, %rbx
.LBB77_68:                              # %"neighbours::writing::text.exit.i.i.i.i.i"
	movq	%rbx, %r14
.LBB77_69:                              # %"neighbours::writing::text.exit.i.i.i.i.i"
	movq	32(%rsp), %rdx                  # 8-byte Reload
	cmpq	%r14, %rdx
	jae	.LBB77_71
.LBB77_6:                               # %"block::check.exit.thread.i.i.i.i"
	movl	$9, %eax
	jmp	.LBB77_72
.LBB77_71:                              # %join.5.i.i.i.i.i.i
	xorl	%eax, %eax
	movzbl	6(%rsp), %ecx                   # 1-byte Folded Reload
	movb	%cl, %al
	shll	$12, %eax
	xorl	%ebx, %ebx
	movzbl	7(%rsp), %ecx                   # 1-byte Folded Reload
	movb	%cl, %bl
	shll	$12, %ebx
	movq	16(%rsp), %rdi                  # 8-byte Reload
	addq	%rax, %rdi
	decq	%rdx
	leaq	-1(%r14), %rax
	cmpq	%rax, %rdx
	cmovaeq	%rax, %rdx
	incq	%rdx
	leaq	40(%rsp), %rsi
	callq	memcpy@PLT
	movq	24(%rsp), %rax                  # 8-byte Reload
	movq	%r14, (%rax,%rbx)
	xorl	%eax, %eax
.LBB77_72:                              # %"tteuyomal_c::texts::tteuyomal_write_neighbours.exit"
	addq	$1832, %rsp                     # imm = 0x728
	popq	%rbx
	popq	%r12
	popq	%r13
	popq	%r14
	popq	%r15
	popq	%rbp
	retq
.Lfunc_end77:
	.size	tteuyomal_write_neighbours, .Lfunc_end77-tteuyomal_write_neighbours
                                        # -- End function
	.section	.text.tteuyomal_write_sheet,"ax",@progbits
	.globl	tteuyomal_write_sheet           # -- Begin function tteuyomal_write_sheet
	.p2align	4
	.type	tteuyomal_write_sheet,@function
tteuyomal_write_sheet:                  # @tteuyomal_write_sheet
# %bb.0:                                # %start
	pushq	%rbp
	pushq	%r14
	pushq	%rbx
	subq	$64, %rsp
	movq	%rsi, %r8
	movq	%rdi, %rsi
	xorl	%edi, %edi
	testq	%rsi, %rsi
	sete	%r9b
	xorl	%ebx, %ebx
	testq	%rdx, %rdx
	sete	%bpl
	movl	$20, %eax
	cmpq	$32768, %r8                     # imm = 0x8000
	ja	.LBB78_5
# %bb.1:                                # %join.3.i.i.i.i
	movl	$9, %eax
	cmpq	$40, %rcx
	jb	.LBB78_5
# %bb.2:                                # %join.6.i.i.i.i
	movq	%rdx, %r14
	movb	%r9b, %dil
	shll	$12, %edi
	addq	%rdi, %rsi
	xorps	%xmm0, %xmm0
	movaps	%xmm0, 48(%rsp)
	movaps	%xmm0, 32(%rsp)
	movaps	%xmm0, 16(%rsp)
	movaps	%xmm0, (%rsp)
	movq	%rsp, %rdi
	movq	%r8, %rdx
	xorl	%ecx, %ecx
	callq	"compose::fields"
	cmpb	$0, (%rsp)
	movq	8(%rsp), %rcx
	movq	16(%rsp), %rax
	je	.LBB78_4
# %bb.3:                                # %arm.7.i.i.i.i
	movzbl	%cl, %ecx
	shlq	$8, %rax
	orq	%rcx, %rax
	jmp	.LBB78_5
.LBB78_4:                               # %"sheets::put_five.exit.i.i.i.i.i.i"
	movb	%bpl, %bl
	shll	$12, %ebx
	movq	40(%rsp), %rdx
	movups	24(%rsp), %xmm0
	movl	$196644, (%r14,%rbx)            # imm = 0x30024
	movl	%ecx, 4(%r14,%rbx)
	movq	%rax, 8(%r14,%rbx)
	movups	%xmm0, 16(%r14,%rbx)
	movq	%rdx, 32(%r14,%rbx)
	xorl	%eax, %eax
.LBB78_5:                               # %"tteuyomal_c::decks::tteuyomal_write_sheet.exit"
	addq	$64, %rsp
	popq	%rbx
	popq	%r14
	popq	%rbp
	retq
.Lfunc_end78:
	.size	tteuyomal_write_sheet, .Lfunc_end78-tteuyomal_write_sheet
                                        # -- End function
	.section	.text.tteuyomal_write_six,"ax",@progbits
	.globl	tteuyomal_write_six             # -- Begin function tteuyomal_write_six
	.p2align	4
	.type	tteuyomal_write_six,@function
tteuyomal_write_six:                    # @tteuyomal_write_six
# %bb.0:                                # %start
	pushq	%rbp
	pushq	%r14
	pushq	%rbx
	subq	$64, %rsp
	movq	%rsi, %r8
	movq	%rdi, %rsi
	xorl	%edi, %edi
	testq	%rsi, %rsi
	sete	%r9b
	xorl	%ebx, %ebx
	testq	%rdx, %rdx
	sete	%bpl
	movl	$20, %eax
	cmpq	$32768, %r8                     # imm = 0x8000
	ja	.LBB79_5
# %bb.1:                                # %join.3.i.i.i.i
	movl	$9, %eax
	cmpq	$44, %rcx
	jb	.LBB79_5
# %bb.2:                                # %join.6.i.i.i.i
	movq	%rdx, %r14
	movb	%r9b, %dil
	shll	$12, %edi
	addq	%rdi, %rsi
	xorps	%xmm0, %xmm0
	movaps	%xmm0, 48(%rsp)
	movaps	%xmm0, 32(%rsp)
	movaps	%xmm0, 16(%rsp)
	movaps	%xmm0, (%rsp)
	movq	%rsp, %rdi
	movq	%r8, %rdx
	xorl	%ecx, %ecx
	callq	"compose::fields"
	cmpb	$0, (%rsp)
	movq	8(%rsp), %rcx
	movq	16(%rsp), %rax
	je	.LBB79_4
# %bb.3:                                # %arm.7.i.i.i.i
	movzbl	%cl, %ecx
	shlq	$8, %rax
	orq	%rcx, %rax
	jmp	.LBB79_5
.LBB79_4:                               # %then.4.i.i.i.i.i.i.i
	movb	%bpl, %bl
	shll	$12, %ebx
	movq	40(%rsp), %rdx
	movl	48(%rsp), %esi
	movups	24(%rsp), %xmm0
	movl	$262184, (%r14,%rbx)            # imm = 0x40028
	movl	%ecx, 4(%r14,%rbx)
	movq	%rax, 8(%r14,%rbx)
	movups	%xmm0, 16(%r14,%rbx)
	movq	%rdx, 32(%r14,%rbx)
	movl	%esi, 40(%r14,%rbx)
	xorl	%eax, %eax
.LBB79_5:                               # %"tteuyomal_c::decks::tteuyomal_write_six.exit"
	addq	$64, %rsp
	popq	%rbx
	popq	%r14
	popq	%rbp
	retq
.Lfunc_end79:
	.size	tteuyomal_write_six, .Lfunc_end79-tteuyomal_write_six
                                        # -- End function
	.section	.text.tteuyomal_written_out,"ax",@progbits
	.globl	tteuyomal_written_out           # -- Begin function tteuyomal_written_out
	.p2align	4
	.type	tteuyomal_written_out,@function
tteuyomal_written_out:                  # @tteuyomal_written_out
# %bb.0:                                # %start
	pushq	%rbp
	pushq	%r14
	pushq	%rbx
	subq	$80, %rsp
	movq	%r8, %rbx
	movq	%rdx, %rax
	movq	%rsi, %rdx
	xorl	%esi, %esi
	testq	%rdi, %rdi
	sete	%sil
	shll	$12, %esi
	addq	%rdi, %rsi
	xorl	%r14d, %r14d
	testq	%r8, %r8
	sete	%bpl
	xorps	%xmm0, %xmm0
	movaps	%xmm0, 48(%rsp)
	movq	$0, 64(%rsp)
	movaps	%xmm0, 16(%rsp)
	movq	$0, 32(%rsp)
	cmpq	$1, %r9
	ja	.LBB80_3
# %bb.1:                                # %then.1.i.i.i
	leaq	48(%rsp), %rdi
	leaq	14(%rsp), %rcx
	movl	$1, %r8d
	callq	"whole::bonds"
	movl	$9, %eax
	cmpb	$1, 48(%rsp)
	jne	.LBB80_7
# %bb.2:                                # %arm.1.i.i.i.i
	movq	64(%rsp), %rax
	movzbl	56(%rsp), %ecx
	jmp	.LBB80_5
.LBB80_3:                               # %join.3.i.i.i
	movq	%rcx, %r8
	xorl	%ecx, %ecx
	testq	%rax, %rax
	sete	%cl
	shll	$12, %ecx
	addq	%rax, %rcx
	leaq	16(%rsp), %rdi
	callq	"whole::bonds"
	movq	24(%rsp), %rcx
	movq	32(%rsp), %rax
	cmpb	$1, 16(%rsp)
	jne	.LBB80_6
# %bb.4:                                # %arm.1.i15.i.i.i
	movzbl	%cl, %ecx
.LBB80_5:                               # %"tteuyomal_c::large::tteuyomal_written_out.exit"
	shlq	$8, %rax
	orq	%rcx, %rax
	jmp	.LBB80_7
.LBB80_6:                               # %join.5.i.i.preheader.i12.i.i.i
	movb	%bpl, %r14b
	shll	$12, %r14d
	movq	%rcx, (%rbx,%r14)
	movq	%rax, 8(%rbx,%r14)
	xorl	%eax, %eax
.LBB80_7:                               # %"tteuyomal_c::large::tteuyomal_written_out.exit"
	addq	$80, %rsp
	popq	%rbx
	popq	%r14
	popq	%rbp
	retq
.Lfunc_end80:
	.size	tteuyomal_written_out, .Lfunc_end80-tteuyomal_written_out
                                        # -- End function
	.type	.Lstatic.4,@object              # @static.4
	.section	.rodata..Lstatic.4,"a",@progbits
.Lstatic.4:
	.ascii	"  0  0  0  0  0  0  0  0999 V2000\n"
	.size	.Lstatic.4, 34

	.type	.Lstatic.5,@object              # @static.5
	.section	.rodata..Lstatic.5,"a",@progbits
.Lstatic.5:
	.ascii	"    0.0000    0.0000    0.0000 C   0  0  0  0  0  0  0  0  0  0  0  0\n"
	.size	.Lstatic.5, 70

	.type	.Lstatic.6,@object              # @static.6
	.section	.rodata.cst16,"aM",@progbits,16
	.p2align	4, 0x0
.Lstatic.6:
	.ascii	"  1  0  0  0  0\n"
	.size	.Lstatic.6, 16

	.type	.Lstatic.8,@object              # @static.8
	.section	.rodata..Lstatic.8,"a",@progbits
.Lstatic.8:
	.ascii	" 0\n"
	.size	.Lstatic.8, 3

	.ident	"rattle logic=dac8208d650f15bf3e2dc313a14fa4c783a3acf887bdfab66e1714b038d9e11b"
	.section	".note.GNU-stack","",@progbits
