	.file	"rattle"
	.section	".text.noise_state::cipher::CipherState::decrypt","ax",@progbits
	.p2align	1
	.type	noise_noise_state_cipher_CipherState_decrypt,@function
noise_noise_state_cipher_CipherState_decrypt:
	.cfi_startproc
	addi	sp, sp, -624
	.cfi_def_cfa_offset 624
	sd	ra, 616(sp)
	sd	s0, 608(sp)
	sd	s1, 600(sp)
	sd	s2, 592(sp)
	sd	s3, 584(sp)
	sd	s4, 576(sp)
	sd	s5, 568(sp)
	sd	s6, 560(sp)
	sd	s7, 552(sp)
	sd	s8, 544(sp)
	sd	s9, 536(sp)
	sd	s10, 528(sp)
	sd	s11, 520(sp)
	.cfi_offset ra, -8
	.cfi_offset s0, -16
	.cfi_offset s1, -24
	.cfi_offset s2, -32
	.cfi_offset s3, -40
	.cfi_offset s4, -48
	.cfi_offset s5, -56
	.cfi_offset s6, -64
	.cfi_offset s7, -72
	.cfi_offset s8, -80
	.cfi_offset s9, -88
	.cfi_offset s10, -96
	.cfi_offset s11, -104
	.cfi_remember_state
	lbu	s0, 0(a1)
	li	s1, 1
	bne	s0, s1, .Lnoise_BB0_2
	ld	a6, 40(a1)
	li	s1, -1
	beq	a6, s1, .Lnoise_BB0_10
.Lnoise_BB0_2:
	srli	a6, a5, 16
	beqz	a6, .Lnoise_BB0_4
	li	a1, 3
	j	.Lnoise_BB0_11
.Lnoise_BB0_4:
	li	s1, 15
	bltu	s1, a5, .Lnoise_BB0_7
	li	s1, 1
	bne	s0, s1, .Lnoise_BB0_7
	li	a1, 2
	j	.Lnoise_BB0_11
.Lnoise_BB0_7:
	li	s1, 1
	bne	s0, s1, .Lnoise_BB0_13
	sd	a0, 152(sp)
	ld	a0, 40(a1)
	sd	a0, 8(sp)
	addi	a6, a5, -16
	sd	a6, 16(sp)
	lbu	t6, 1(a1)
	lbu	a7, 2(a1)
	lbu	t0, 3(a1)
	lbu	a5, 4(a1)
	lbu	t2, 5(a1)
	lbu	s6, 6(a1)
	lbu	t1, 7(a1)
	lbu	s1, 8(a1)
	lbu	s2, 9(a1)
	lbu	t3, 10(a1)
	lbu	s4, 11(a1)
	lbu	s0, 12(a1)
	lbu	s7, 13(a1)
	lbu	s8, 14(a1)
	lbu	s9, 15(a1)
	lbu	s10, 16(a1)
	lbu	s5, 17(a1)
	lbu	s11, 18(a1)
	lbu	ra, 19(a1)
	lbu	s3, 20(a1)
	lbu	t5, 21(a1)
	lbu	t4, 22(a1)
	lbu	a0, 23(a1)
	sd	a0, 88(sp)
	lbu	a0, 24(a1)
	sd	a0, 80(sp)
	slli	a5, a5, 24
	slli	t0, t0, 16
	slli	a7, a7, 8
	or	a0, a7, t6
	sd	a0, 112(sp)
	or	a0, t0, a5
	sd	a0, 104(sp)
	lbu	a0, 25(a1)
	sd	a0, 96(sp)
	lbu	a0, 26(a1)
	sd	a0, 72(sp)
	lbu	t6, 27(a1)
	lbu	a7, 28(a1)
	slli	s1, s1, 24
	slli	a0, t1, 16
	slli	s6, s6, 8
	slli	s0, s0, 24
	slli	s4, s4, 16
	slli	t3, t3, 8
	or	t2, s6, t2
	or	s6, a0, s1
	or	t3, t3, s2
	or	s2, s4, s0
	lbu	s0, 29(a1)
	lbu	s1, 30(a1)
	lbu	s4, 31(a1)
	sd	a1, 0(sp)
	lbu	t0, 32(a1)
	slli	s8, s8, 8
	or	s8, s8, s7
	add	a1, a4, a6
	slli	s10, s10, 24
	slli	s9, s9, 16
	slli	s3, s3, 24
	slli	ra, ra, 16
	slli	s11, s11, 8
	slli	t1, t4, 8
	or	s9, s9, s10
	or	t4, s11, s5
	or	ra, ra, s3
	or	t1, t1, t5
	lbu	a5, 0(a1)
	sd	a5, 144(sp)
	lbu	a5, 1(a1)
	sd	a5, 136(sp)
	lbu	a5, 2(a1)
	sd	a5, 128(sp)
	lbu	a5, 3(a1)
	sd	a5, 120(sp)
	ld	t5, 80(sp)
	slli	t5, t5, 24
	ld	s5, 88(sp)
	slli	s5, s5, 16
	slli	a5, a7, 24
	slli	a6, t6, 16
	ld	a7, 72(sp)
	slli	a7, a7, 8
	slli	s1, s1, 8
	or	t5, s5, t5
	ld	a0, 96(sp)
	or	a7, a7, a0
	or	a6, a6, a5
	or	s0, s0, s1
	lbu	s1, 8(a1)
	sd	s1, 80(sp)
	lbu	s1, 9(a1)
	sd	s1, 64(sp)
	lbu	s1, 10(a1)
	sd	s1, 72(sp)
	lbu	s1, 11(a1)
	sd	s1, 56(sp)
	slli	a0, t0, 24
	slli	s4, s4, 16
	or	a0, s4, a0
	ld	s1, 112(sp)
	ld	a5, 104(sp)
	or	s4, s1, a5
	or	s6, t2, s6
	or	s3, t3, s2
	lbu	s1, 12(a1)
	sd	s1, 32(sp)
	lbu	s1, 13(a1)
	sd	s1, 24(sp)
	lbu	s1, 14(a1)
	sd	s1, 96(sp)
	lbu	s1, 15(a1)
	sd	s1, 112(sp)
	or	s7, s8, s9
	or	s8, t4, ra
	or	s9, t1, t5
	lbu	s1, 4(a1)
	sd	s1, 48(sp)
	lbu	s1, 5(a1)
	sd	s1, 40(sp)
	lbu	s1, 6(a1)
	sd	s1, 88(sp)
	lbu	a1, 7(a1)
	sd	a1, 104(sp)
	or	s10, a7, a6
	or	s0, s0, a0
	addi	s11, sp, 256
	mv	s2, a2
	li	a2, 256
	mv	a0, s11
	li	a1, 0
	mv	s5, a4
	mv	s1, a3
	call	memset
	sw	s4, 208(sp)
	sw	s6, 212(sp)
	sw	s3, 216(sp)
	sw	s7, 220(sp)
	sw	s8, 224(sp)
	sw	s9, 228(sp)
	sw	s10, 232(sp)
	sw	s0, 236(sp)
	ld	a2, 8(sp)
	sd	a2, 240(sp)
	sd	zero, 248(sp)
	li	a0, 64
	sd	a0, 512(sp)
	addi	a0, sp, 208
	li	a1, 0
	mv	a3, s11
	call	noise_rand_chacha_guts_refill4
	ld	a0, 248(sp)
	lw	a1, 256(sp)
	lw	a2, 260(sp)
	lw	a3, 264(sp)
	li	a4, 16
	sd	a4, 512(sp)
	addi	a0, a0, 4
	srli	a4, a3, 16
	srli	a5, a1, 16
	sd	a0, 248(sp)
	srli	a0, a1, 8
	sb	a1, 176(sp)
	sb	a0, 177(sp)
	srli	a0, a3, 8
	srli	a1, a1, 24
	sb	a5, 178(sp)
	srli	a5, a2, 24
	sb	a1, 179(sp)
	srli	a1, a2, 8
	sb	a2, 180(sp)
	srli	a2, a2, 16
	sb	a1, 181(sp)
	sb	a2, 182(sp)
	sb	a5, 183(sp)
	sb	a3, 184(sp)
	sb	a0, 185(sp)
	lw	a0, 268(sp)
	lw	a1, 272(sp)
	lw	a2, 276(sp)
	lw	a5, 280(sp)
	srli	a3, a3, 24
	sb	a4, 186(sp)
	srli	a4, a0, 16
	sb	a3, 187(sp)
	srli	a3, a0, 8
	sb	a3, 189(sp)
	sb	a0, 188(sp)
	srli	a0, a0, 24
	sb	a4, 190(sp)
	srli	a3, a1, 16
	sb	a0, 191(sp)
	srli	a0, a1, 8
	sb	a0, 193(sp)
	sb	a1, 192(sp)
	srli	a1, a1, 24
	sb	a3, 194(sp)
	srli	a0, a2, 16
	sb	a1, 195(sp)
	srli	a1, a2, 8
	sb	a1, 197(sp)
	sb	a2, 196(sp)
	srli	a2, a2, 24
	sb	a0, 198(sp)
	srli	a0, a5, 16
	sb	a2, 199(sp)
	srli	a1, a5, 8
	sb	a1, 201(sp)
	lw	a1, 284(sp)
	sb	a5, 200(sp)
	srli	a5, a5, 24
	sb	a0, 202(sp)
	srli	a0, a1, 16
	sb	a5, 203(sp)
	srli	a2, a1, 8
	sb	a2, 205(sp)
	sb	a1, 204(sp)
	srli	a1, a1, 24
	sb	a0, 206(sp)
	sb	a1, 207(sp)
	addi	a0, sp, 160
	addi	a1, sp, 176
	mv	a2, s2
	mv	a3, s1
	ld	s4, 16(sp)
	mv	s2, s5
	mv	a4, s5
	mv	a5, s4
	call	noise_noise_aead_authenticator_tag
	ld	a0, 64(sp)
	slli	a0, a0, 8
	ld	a1, 80(sp)
	or	a6, a0, a1
	ld	a1, 56(sp)
	slli	a1, a1, 24
	ld	a2, 72(sp)
	slli	a2, a2, 16
	or	a1, a1, a2
	ld	a2, 24(sp)
	slli	a2, a2, 40
	ld	a3, 32(sp)
	slli	a3, a3, 32
	or	a2, a2, a3
	ld	a3, 40(sp)
	slli	a3, a3, 40
	ld	a4, 48(sp)
	slli	a4, a4, 32
	ld	a5, 120(sp)
	slli	a5, a5, 24
	ld	s1, 128(sp)
	slli	s1, s1, 16
	ld	s0, 136(sp)
	slli	s0, s0, 8
	ld	a0, 144(sp)
	or	s0, s0, a0
	or	a5, a5, s1
	or	a3, a3, a4
	or	a0, a6, a1
	lbu	a6, 160(sp)
	lbu	a7, 161(sp)
	lbu	t0, 162(sp)
	lbu	t1, 163(sp)
	ld	a4, 96(sp)
	slli	a4, a4, 48
	ld	s1, 88(sp)
	slli	s1, s1, 48
	or	a2, a2, a4
	or	a5, a5, s0
	or	a3, a3, s1
	or	a0, a0, a2
	lbu	a2, 168(sp)
	lbu	a4, 169(sp)
	lbu	t2, 170(sp)
	lbu	s0, 171(sp)
	ld	a1, 112(sp)
	slli	a1, a1, 56
	ld	s1, 104(sp)
	slli	s1, s1, 56
	or	a3, a3, a5
	slli	a4, a4, 8
	or	t3, a0, a1
	or	t4, a3, s1
	or	t6, a4, a2
	lbu	a1, 173(sp)
	lbu	a4, 172(sp)
	lbu	s3, 174(sp)
	lbu	t5, 175(sp)
	slli	a1, a1, 40
	slli	a4, a4, 32
	slli	s0, s0, 24
	slli	t2, t2, 16
	slli	t1, t1, 24
	slli	t0, t0, 16
	slli	a7, a7, 8
	or	s0, t2, s0
	or	a1, a1, a4
	or	a4, a7, a6
	or	a0, t0, t1
	lbu	a3, 165(sp)
	lbu	s1, 164(sp)
	lbu	a2, 166(sp)
	lbu	a5, 167(sp)
	slli	a3, a3, 40
	slli	s1, s1, 32
	or	a3, a3, s1
	or	s1, t6, s0
	slli	s3, s3, 48
	or	a1, a1, s3
	or	a0, a0, a4
	slli	a2, a2, 48
	or	a2, a2, a3
	or	a1, a1, s1
	or	a0, a0, a2
	slli	t5, t5, 56
	or	a1, a1, t5
	slli	a5, a5, 56
	or	a0, a0, a5
	xor	a1, a1, t3
	xor	a0, a0, t4
	or	a0, a0, a1
	bnez	a0, .Lnoise_BB0_14
	addi	a0, sp, 208
	mv	a1, s2
	mv	a2, s4
	call	noise_noise_aead_keystream_apply
	ld	a0, 0(sp)
	ld	a1, 40(a0)
	srli	a2, s4, 56
	srli	a3, s4, 48
	srli	a4, s4, 40
	srli	a5, s4, 32
	addi	a1, a1, 1
	sd	a1, 40(a0)
	srli	a0, s4, 24
	srli	a1, s4, 16
	ld	s1, 152(sp)
	sb	a3, 14(s1)
	sb	a2, 15(s1)
	srli	a2, s4, 8
	sb	a1, 10(s1)
	sb	a0, 11(s1)
	sb	a5, 12(s1)
	sb	a4, 13(s1)
	sb	zero, 0(s1)
	sb	zero, 1(s1)
	sb	s4, 8(s1)
	sb	a2, 9(s1)
	j	.Lnoise_BB0_12
.Lnoise_BB0_10:
	li	a1, 0
.Lnoise_BB0_11:
	li	a2, 1
	sb	zero, 14(a0)
	sb	zero, 15(a0)
	sb	zero, 10(a0)
	sb	zero, 11(a0)
	sb	zero, 12(a0)
	sb	zero, 13(a0)
	sb	a2, 0(a0)
	sb	a1, 1(a0)
	sb	zero, 8(a0)
	sb	zero, 9(a0)
.Lnoise_BB0_12:
	ld	ra, 616(sp)
	ld	s0, 608(sp)
	ld	s1, 600(sp)
	ld	s2, 592(sp)
	ld	s3, 584(sp)
	ld	s4, 576(sp)
	ld	s5, 568(sp)
	ld	s6, 560(sp)
	ld	s7, 552(sp)
	ld	s8, 544(sp)
	ld	s9, 536(sp)
	ld	s10, 528(sp)
	ld	s11, 520(sp)
	.cfi_restore ra
	.cfi_restore s0
	.cfi_restore s1
	.cfi_restore s2
	.cfi_restore s3
	.cfi_restore s4
	.cfi_restore s5
	.cfi_restore s6
	.cfi_restore s7
	.cfi_restore s8
	.cfi_restore s9
	.cfi_restore s10
	.cfi_restore s11
	addi	sp, sp, 624
	.cfi_def_cfa_offset 0
	ret
.Lnoise_BB0_13:
	.cfi_restore_state
	srli	a1, a5, 56
	srli	a2, a5, 48
	srli	a3, a5, 40
	srli	a4, a5, 32
	srli	s1, a5, 24
	sb	a2, 14(a0)
	sb	a1, 15(a0)
	srli	a1, a5, 8
	sb	a6, 10(a0)
	sb	s1, 11(a0)
	sb	a4, 12(a0)
	sb	a3, 13(a0)
	sb	zero, 0(a0)
	sb	zero, 1(a0)
	sb	a5, 8(a0)
	sb	a1, 9(a0)
	j	.Lnoise_BB0_12
.Lnoise_BB0_14:
	li	a0, 1
	ld	a1, 152(sp)
	sb	zero, 14(a1)
	sb	zero, 15(a1)
	sb	zero, 10(a1)
	sb	zero, 11(a1)
	sb	zero, 12(a1)
	sb	zero, 13(a1)
	sb	a0, 0(a1)
	sb	a0, 1(a1)
	sb	zero, 8(a1)
	sb	zero, 9(a1)
	j	.Lnoise_BB0_12
.Lnoise_func_end0:
	.size	noise_noise_state_cipher_CipherState_decrypt, .Lnoise_func_end0-noise_noise_state_cipher_CipherState_decrypt
	.cfi_endproc

	.section	".text.rand_chacha::guts::refill4","ax",@progbits
	.p2align	1
	.type	noise_rand_chacha_guts_refill4,@function
noise_rand_chacha_guts_refill4:
	.cfi_startproc
	addi	sp, sp, -1328
	.cfi_def_cfa_offset 1328
	sd	ra, 1320(sp)
	sd	s0, 1312(sp)
	sd	s1, 1304(sp)
	sd	s2, 1296(sp)
	sd	s3, 1288(sp)
	sd	s4, 1280(sp)
	sd	s5, 1272(sp)
	sd	s6, 1264(sp)
	sd	s7, 1256(sp)
	sd	s8, 1248(sp)
	sd	s9, 1240(sp)
	sd	s10, 1232(sp)
	sd	s11, 1224(sp)
	.cfi_offset ra, -8
	.cfi_offset s0, -16
	.cfi_offset s1, -24
	.cfi_offset s2, -32
	.cfi_offset s3, -40
	.cfi_offset s4, -48
	.cfi_offset s5, -56
	.cfi_offset s6, -64
	.cfi_offset s7, -72
	.cfi_offset s8, -80
	.cfi_offset s9, -88
	.cfi_offset s10, -96
	.cfi_offset s11, -104
	sd	a3, 16(sp)
	mv	s11, a2
	mv	s4, a1
	mv	s3, a0
	addi	a0, sp, 704
	li	a2, 256
	li	a1, 0
	call	memset
	addi	a0, s4, 1
	addi	a1, s4, 2
	addi	t4, s4, 3
	lw	t6, 0(s3)
	lw	s5, 4(s3)
	lw	t5, 8(s3)
	lw	t3, 12(s3)
	lw	s9, 16(s3)
	lw	a7, 20(s3)
	lw	a6, 24(s3)
	lw	s8, 28(s3)
	mv	s3, a0
	srli	t1, s4, 32
	srli	a0, s11, 32
	lui	t2, 399112
	lui	s1, 209414
	lui	a5, 497187
	lui	a4, 438790
	sw	s11, 1184(sp)
	sw	s11, 1188(sp)
	sw	s11, 1192(sp)
	sw	s11, 1196(sp)
	srli	s6, s3, 32
	srli	s10, a1, 32
	srli	t0, t4, 32
	addi	a3, t2, -1947
	addi	a2, s1, 1134
	addi	s1, a5, -718
	addi	t2, a4, 1396
	sd	s4, 688(sp)
	sw	s4, 1152(sp)
	sw	s3, 1156(sp)
	sd	a1, 360(sp)
	sw	a1, 1160(sp)
	sw	t4, 1164(sp)
	sd	a0, 664(sp)
	sw	a0, 1200(sp)
	sw	a0, 1204(sp)
	sw	a0, 1208(sp)
	sw	a0, 1212(sp)
	slli	a0, a3, 32
	slli	a1, a2, 32
	slli	a5, s1, 32
	slli	a4, t2, 32
	sd	t1, 680(sp)
	sw	t1, 1168(sp)
	sw	s6, 1172(sp)
	sw	s10, 1176(sp)
	sw	t0, 1180(sp)
	add	a0, a0, a3
	add	a1, a1, a2
	add	a5, a5, s1
	add	a4, a4, t2
	sd	a0, 960(sp)
	sd	a0, 968(sp)
	sd	a1, 976(sp)
	sd	a1, 984(sp)
	sd	a5, 992(sp)
	sd	a5, 1000(sp)
	sd	a4, 1008(sp)
	sd	a4, 1016(sp)
	mv	a4, s6
	sw	t6, 1024(sp)
	sw	t6, 1028(sp)
	sw	t6, 1032(sp)
	sw	t6, 1036(sp)
	sw	s5, 1040(sp)
	sw	s5, 1044(sp)
	sw	s5, 1048(sp)
	sw	s5, 1052(sp)
	sw	t5, 1056(sp)
	sw	t5, 1060(sp)
	sw	t5, 1064(sp)
	sw	t5, 1068(sp)
	sw	t3, 1072(sp)
	sw	t3, 1076(sp)
	sw	t3, 1080(sp)
	sw	t3, 1084(sp)
	sw	s9, 1088(sp)
	sw	s9, 1092(sp)
	sw	s9, 1096(sp)
	sw	s9, 1100(sp)
	sw	a7, 1104(sp)
	sw	a7, 1108(sp)
	sw	a7, 1112(sp)
	sw	a7, 1116(sp)
	sw	a6, 1120(sp)
	sw	a6, 1124(sp)
	sw	a6, 1128(sp)
	sw	a6, 1132(sp)
	sw	s8, 1136(sp)
	sw	s8, 1140(sp)
	sw	s8, 1144(sp)
	sw	s8, 1148(sp)
	li	a0, 10
	sd	a3, 416(sp)
	sd	a3, 408(sp)
	sd	a3, 448(sp)
	sd	a3, 400(sp)
	sd	a2, 440(sp)
	sd	a2, 432(sp)
	sd	a2, 672(sp)
	sd	a2, 424(sp)
	sd	s1, 480(sp)
	sd	s1, 472(sp)
	sd	s1, 464(sp)
	sd	t2, 544(sp)
	sd	t2, 536(sp)
	sd	t2, 392(sp)
	sd	t2, 528(sp)
	mv	s6, t6
	mv	a2, t6
	mv	t2, t6
	sd	s5, 520(sp)
	mv	ra, s5
	mv	s2, s5
	sd	t5, 568(sp)
	sd	t5, 552(sp)
	sd	t5, 560(sp)
	sd	t3, 592(sp)
	sd	t3, 384(sp)
	sd	t3, 584(sp)
	sd	t3, 368(sp)
	sd	s9, 512(sp)
	mv	s4, s9
	sd	s9, 376(sp)
	sd	s9, 504(sp)
	sd	a7, 496(sp)
	sd	a7, 488(sp)
	sd	a7, 576(sp)
	sd	a6, 656(sp)
	sd	a6, 648(sp)
	sd	a6, 624(sp)
	sd	a6, 640(sp)
	mv	a6, s10
	sd	s8, 632(sp)
	sd	s8, 616(sp)
	sd	s8, 608(sp)
	mv	s10, s11
	mv	t1, s11
	sd	s11, 456(sp)
	ld	a1, 664(sp)
	sd	a1, 600(sp)
	mv	s0, a1
	sd	a1, 696(sp)
.Lnoise_BB1_1:
	sd	s8, 216(sp)
	sd	t5, 232(sp)
	sd	a2, 272(sp)
	sd	a7, 344(sp)
	addiw	a0, a0, -1
	sd	a0, 352(sp)
	ld	a0, 400(sp)
	add	a0, a0, t2
	sd	a0, 400(sp)
	xor	a0, t4, a0
	srliw	a1, a0, 16
	slli	a0, a0, 16
	or	a0, a0, a1
	sd	a0, 336(sp)
	ld	a0, 408(sp)
	add	a0, a0, a2
	sd	a0, 408(sp)
	ld	a1, 360(sp)
	xor	a0, a0, a1
	srliw	a1, a0, 16
	slli	a0, a0, 16
	or	a0, a0, a1
	sd	a0, 328(sp)
	ld	a0, 448(sp)
	add	a0, a0, t6
	sd	a0, 448(sp)
	xor	a0, s3, a0
	srliw	a1, a0, 16
	slli	a0, a0, 16
	or	a0, a0, a1
	sd	a0, 320(sp)
	ld	a0, 416(sp)
	add	a1, s6, a0
	sd	a1, 416(sp)
	ld	a0, 688(sp)
	xor	a0, a0, a1
	srliw	a1, a0, 16
	slli	a0, a0, 16
	or	a0, a0, a1
	sd	a0, 688(sp)
	mv	s7, s5
	ld	a0, 424(sp)
	add	a0, a0, s5
	sd	a0, 424(sp)
	xor	a0, t0, a0
	srliw	a1, a0, 16
	slli	a0, a0, 16
	or	a0, a0, a1
	sd	a0, 296(sp)
	mv	a5, ra
	ld	a0, 432(sp)
	add	a0, a0, ra
	sd	a0, 432(sp)
	xor	a0, a6, a0
	srliw	a1, a0, 16
	slli	a0, a0, 16
	or	a0, a0, a1
	sd	a0, 288(sp)
	mv	a3, s2
	ld	a0, 672(sp)
	add	a0, a0, s2
	sd	a0, 360(sp)
	xor	a0, a0, a4
	srliw	a1, a0, 16
	slli	a0, a0, 16
	or	a0, a0, a1
	sd	a0, 280(sp)
	ld	s9, 520(sp)
	ld	a0, 440(sp)
	add	a1, s9, a0
	sd	a1, 440(sp)
	ld	a0, 680(sp)
	xor	a0, a0, a1
	srliw	a1, a0, 16
	slli	a0, a0, 16
	or	a0, a0, a1
	sd	a0, 680(sp)
	ld	a0, 464(sp)
	add	a0, a0, t5
	sd	a0, 464(sp)
	xor	a0, s11, a0
	srliw	a1, a0, 16
	slli	a0, a0, 16
	or	a0, a0, a1
	sd	a0, 672(sp)
	ld	t0, 552(sp)
	ld	a0, 472(sp)
	add	a0, a0, t0
	sd	a0, 472(sp)
	xor	a0, t1, a0
	srliw	a1, a0, 16
	slli	a0, a0, 16
	or	a0, a0, a1
	sd	a0, 176(sp)
	mv	s5, t6
	ld	t5, 560(sp)
	add	t3, t5, s1
	sd	t3, 304(sp)
	xor	a0, s10, t3
	srliw	a1, a0, 16
	slli	a0, a0, 16
	or	a7, a0, a1
	ld	a6, 568(sp)
	ld	a0, 480(sp)
	add	a1, a6, a0
	sd	a1, 312(sp)
	ld	a0, 456(sp)
	xor	a0, a0, a1
	srliw	a1, a0, 16
	slli	a0, a0, 16
	or	s10, a0, a1
	sd	s10, 136(sp)
	ld	a0, 528(sp)
	ld	s1, 368(sp)
	add	a1, s1, a0
	sd	a1, 192(sp)
	ld	a0, 696(sp)
	xor	a0, a0, a1
	srliw	a1, a0, 16
	slli	a0, a0, 16
	or	ra, a0, a1
	ld	a0, 536(sp)
	ld	s8, 384(sp)
	add	a0, a0, s8
	sd	a0, 256(sp)
	xor	a0, a0, s0
	srliw	a1, a0, 16
	slli	a0, a0, 16
	mv	a4, s4
	or	s3, a0, a1
	sd	s3, 40(sp)
	ld	s2, 584(sp)
	ld	a0, 392(sp)
	add	a1, s2, a0
	sd	a1, 248(sp)
	ld	a0, 664(sp)
	xor	a0, a0, a1
	srliw	a1, a0, 16
	slli	a0, a0, 16
	or	t3, a0, a1
	sd	t3, 88(sp)
	ld	t6, 592(sp)
	ld	a0, 544(sp)
	add	a1, t6, a0
	sd	a1, 240(sp)
	ld	a0, 600(sp)
	xor	a0, a0, a1
	srliw	a1, a0, 16
	slli	a0, a0, 16
	mv	s4, s1
	or	s0, a0, a1
	sd	s0, 160(sp)
	ld	a0, 512(sp)
	ld	a1, 688(sp)
	add	a0, a0, a1
	sd	a0, 208(sp)
	xor	a0, a0, s6
	srliw	a1, a0, 20
	slli	a0, a0, 12
	or	a0, a0, a1
	sd	a0, 120(sp)
	ld	s6, 320(sp)
	ld	a0, 376(sp)
	add	a0, a0, s6
	sd	a0, 696(sp)
	xor	a0, a0, s5
	srliw	a1, a0, 20
	slli	a0, a0, 12
	or	a0, a0, a1
	sd	a0, 64(sp)
	ld	s5, 328(sp)
	add	a4, a4, s5
	sd	a4, 664(sp)
	ld	a0, 272(sp)
	xor	a0, a0, a4
	srliw	a1, a0, 20
	slli	a0, a0, 12
	or	t4, a0, a1
	sd	t4, 96(sp)
	ld	a0, 504(sp)
	ld	t1, 336(sp)
	add	a0, a0, t1
	sd	a0, 544(sp)
	xor	a0, a0, t2
	srliw	a1, a0, 20
	slli	a0, a0, 12
	or	a1, a1, a0
	sd	a1, 504(sp)
	ld	a0, 496(sp)
	ld	a2, 680(sp)
	add	a0, a0, a2
	sd	a0, 536(sp)
	xor	a0, a0, s9
	srliw	a2, a0, 20
	slli	a0, a0, 12
	or	a0, a0, a2
	sd	a0, 112(sp)
	ld	a0, 576(sp)
	ld	s11, 280(sp)
	add	a0, a0, s11
	sd	a0, 576(sp)
	xor	a2, a0, a3
	srliw	a3, a2, 20
	slli	a2, a2, 12
	or	a2, a2, a3
	sd	a2, 56(sp)
	ld	a0, 488(sp)
	ld	s1, 288(sp)
	add	a0, a0, s1
	sd	a0, 528(sp)
	xor	a3, a0, a5
	srliw	a5, a3, 20
	slli	a3, a3, 12
	or	a3, a3, a5
	sd	a3, 32(sp)
	ld	a0, 344(sp)
	ld	t2, 296(sp)
	add	a0, a0, t2
	sd	a0, 520(sp)
	xor	a4, a0, s7
	srliw	a5, a4, 20
	slli	a4, a4, 12
	or	a2, a4, a5
	sd	a2, 152(sp)
	ld	s9, 656(sp)
	add	s9, s9, s10
	sd	s9, 496(sp)
	xor	a5, s9, a6
	srliw	a6, a5, 20
	slli	a5, a5, 12
	or	a0, a5, a6
	sd	a0, 128(sp)
	ld	s7, 624(sp)
	mv	s10, a7
	add	s7, s7, a7
	sd	s7, 568(sp)
	xor	a6, s7, t5
	srliw	a7, a6, 20
	slli	a6, a6, 12
	or	a0, a6, a7
	sd	a0, 72(sp)
	ld	a0, 648(sp)
	ld	a6, 176(sp)
	add	a0, a0, a6
	sd	a0, 488(sp)
	xor	a7, a0, t0
	srliw	t0, a7, 20
	slli	a7, a7, 12
	or	a0, a7, t0
	sd	a0, 24(sp)
	ld	a0, 640(sp)
	ld	a3, 672(sp)
	add	a0, a0, a3
	sd	a0, 264(sp)
	ld	a3, 232(sp)
	xor	t0, a0, a3
	srliw	t5, t0, 20
	slli	t0, t0, 12
	or	a3, t0, t5
	sd	a3, 144(sp)
	ld	a0, 632(sp)
	add	a0, a0, s0
	sd	a0, 184(sp)
	xor	t5, a0, t6
	srliw	t6, t5, 20
	slli	t5, t5, 12
	or	a0, t5, t6
	sd	a0, 104(sp)
	ld	a0, 608(sp)
	add	a0, a0, t3
	sd	a0, 232(sp)
	xor	t6, a0, s2
	srliw	s2, t6, 20
	slli	t6, t6, 12
	or	a0, t6, s2
	sd	a0, 48(sp)
	ld	a0, 616(sp)
	add	a0, a0, s3
	sd	a0, 224(sp)
	xor	s2, a0, s8
	srliw	s3, s2, 20
	slli	s2, s2, 12
	or	s7, s2, s3
	sd	s7, 80(sp)
	mv	t6, ra
	ld	a0, 216(sp)
	add	a0, a0, ra
	sd	a0, 216(sp)
	xor	s3, a0, s4
	srliw	s8, s3, 20
	slli	s3, s3, 12
	or	a5, s3, s8
	sd	a5, 168(sp)
	ld	s8, 400(sp)
	add	a0, a1, s8
	sd	a0, 368(sp)
	xor	a0, a0, t1
	srliw	a1, a0, 24
	slli	a0, a0, 8
	or	ra, a0, a1
	ld	a0, 408(sp)
	add	a0, a0, t4
	sd	a0, 608(sp)
	xor	a0, a0, s5
	srliw	a1, a0, 24
	slli	a0, a0, 8
	or	s4, a0, a1
	sd	s4, 272(sp)
	ld	a0, 448(sp)
	ld	t5, 64(sp)
	add	a0, a0, t5
	sd	a0, 600(sp)
	xor	a0, a0, s6
	srliw	a1, a0, 24
	slli	a0, a0, 8
	or	t0, a0, a1
	sd	t0, 328(sp)
	ld	a0, 416(sp)
	ld	s6, 120(sp)
	add	a0, a0, s6
	sd	a0, 560(sp)
	ld	a1, 688(sp)
	xor	a0, a0, a1
	srliw	a1, a0, 24
	slli	a0, a0, 8
	or	a4, a0, a1
	sd	a4, 200(sp)
	ld	a0, 424(sp)
	add	a0, a0, a2
	sd	a0, 424(sp)
	xor	a0, a0, t2
	srliw	a1, a0, 24
	slli	a0, a0, 8
	or	s8, a0, a1
	ld	a0, 432(sp)
	ld	s2, 32(sp)
	add	a0, a0, s2
	sd	a0, 392(sp)
	xor	a0, a0, s1
	srliw	a1, a0, 24
	slli	a0, a0, 8
	or	s9, a0, a1
	sd	s9, 344(sp)
	ld	a0, 360(sp)
	ld	a7, 56(sp)
	add	a0, a0, a7
	sd	a0, 384(sp)
	xor	a0, a0, s11
	srliw	a1, a0, 24
	slli	a0, a0, 8
	or	t3, a0, a1
	sd	t3, 360(sp)
	ld	a0, 440(sp)
	ld	s1, 112(sp)
	add	a0, a0, s1
	sd	a0, 376(sp)
	ld	a1, 680(sp)
	xor	a0, a0, a1
	srliw	a1, a0, 24
	slli	a0, a0, 8
	or	a2, a0, a1
	sd	a2, 400(sp)
	ld	a0, 464(sp)
	add	a0, a0, a3
	sd	a0, 440(sp)
	ld	a1, 672(sp)
	xor	a0, a0, a1
	srliw	a1, a0, 24
	slli	a0, a0, 8
	or	s3, a0, a1
	ld	a0, 472(sp)
	ld	t4, 24(sp)
	add	a0, a0, t4
	sd	a0, 472(sp)
	xor	a0, a0, a6
	srliw	a1, a0, 24
	slli	a0, a0, 8
	or	s5, a0, a1
	sd	s5, 448(sp)
	ld	a0, 304(sp)
	ld	t2, 72(sp)
	add	a0, a0, t2
	sd	a0, 464(sp)
	xor	a0, a0, s10
	srliw	a1, a0, 24
	slli	a0, a0, 8
	or	a6, a0, a1
	sd	a6, 480(sp)
	ld	a0, 312(sp)
	ld	a3, 128(sp)
	add	a0, a0, a3
	sd	a0, 456(sp)
	ld	a1, 136(sp)
	xor	a0, a0, a1
	srliw	a1, a0, 24
	slli	a0, a0, 8
	or	s0, a0, a1
	sd	s0, 512(sp)
	ld	a0, 192(sp)
	add	a0, a0, a5
	sd	a0, 616(sp)
	xor	a0, a0, t6
	srliw	a1, a0, 24
	slli	a0, a0, 8
	or	t6, a0, a1
	ld	a0, 256(sp)
	add	a0, a0, s7
	sd	a0, 640(sp)
	ld	a1, 40(sp)
	xor	a0, a0, a1
	srliw	a1, a0, 24
	slli	a0, a0, 8
	or	s7, a0, a1
	ld	a0, 248(sp)
	ld	t1, 48(sp)
	add	a0, a0, t1
	sd	a0, 632(sp)
	ld	a1, 88(sp)
	xor	a0, a0, a1
	srliw	a1, a0, 24
	slli	a0, a0, 8
	or	s11, a0, a1
	ld	a0, 240(sp)
	ld	a5, 104(sp)
	add	a0, a0, a5
	sd	a0, 624(sp)
	ld	a1, 160(sp)
	xor	a0, a0, a1
	srliw	a1, a0, 24
	slli	a0, a0, 8
	or	s10, a0, a1
	ld	a0, 208(sp)
	add	a0, a0, a4
	sd	a0, 680(sp)
	xor	a0, a0, s6
	srliw	a1, a0, 25
	slli	a0, a0, 7
	or	a0, a0, a1
	sd	a0, 592(sp)
	ld	a0, 696(sp)
	add	a0, a0, t0
	sd	a0, 672(sp)
	xor	a0, a0, t5
	srliw	a1, a0, 25
	slli	a0, a0, 7
	or	a0, a0, a1
	sd	a0, 584(sp)
	ld	a0, 664(sp)
	add	a0, a0, s4
	sd	a0, 664(sp)
	ld	a1, 96(sp)
	xor	a0, a0, a1
	srliw	a1, a0, 25
	slli	a0, a0, 7
	or	a0, a0, a1
	sd	a0, 552(sp)
	ld	a0, 544(sp)
	add	a0, a0, ra
	sd	a0, 656(sp)
	ld	a1, 504(sp)
	xor	a0, a0, a1
	srliw	a1, a0, 25
	slli	a0, a0, 7
	or	a0, a0, a1
	sd	a0, 504(sp)
	ld	a0, 536(sp)
	add	a0, a0, a2
	sd	a0, 648(sp)
	xor	a0, a0, s1
	srliw	a1, a0, 25
	slli	a0, a0, 7
	or	a4, a0, a1
	ld	a0, 576(sp)
	add	a0, a0, t3
	sd	a0, 576(sp)
	xor	a0, a0, a7
	srliw	a1, a0, 25
	slli	a0, a0, 7
	or	s4, a0, a1
	sd	s4, 304(sp)
	ld	a0, 528(sp)
	add	a0, a0, s9
	sd	a0, 696(sp)
	xor	a0, a0, s2
	srliw	a1, a0, 25
	slli	a0, a0, 7
	or	s9, a0, a1
	sd	s9, 408(sp)
	ld	a0, 520(sp)
	add	a0, a0, s8
	sd	a0, 688(sp)
	ld	a1, 152(sp)
	xor	a0, a0, a1
	srliw	a1, a0, 25
	slli	a0, a0, 7
	or	t3, a0, a1
	sd	t3, 432(sp)
	ld	a0, 496(sp)
	add	a0, a0, s0
	sd	a0, 544(sp)
	xor	a0, a0, a3
	srliw	a1, a0, 25
	slli	a0, a0, 7
	or	t5, a0, a1
	ld	a0, 568(sp)
	add	a0, a0, a6
	sd	a0, 536(sp)
	xor	a0, a0, t2
	srliw	a1, a0, 25
	slli	a0, a0, 7
	or	a6, a0, a1
	ld	a0, 488(sp)
	add	a0, a0, s5
	sd	a0, 528(sp)
	xor	a0, a0, t4
	srliw	a1, a0, 25
	slli	a0, a0, 7
	or	s0, a0, a1
	sd	s0, 288(sp)
	ld	a0, 264(sp)
	add	a0, a0, s3
	sd	a0, 520(sp)
	ld	a1, 144(sp)
	xor	a0, a0, a1
	srliw	a1, a0, 25
	slli	a0, a0, 7
	or	s1, a0, a1
	sd	s1, 336(sp)
	ld	a0, 184(sp)
	add	a0, a0, s10
	sd	a0, 496(sp)
	xor	a1, a0, a5
	srliw	a2, a1, 25
	slli	a1, a1, 7
	or	t0, a1, a2
	ld	a0, 232(sp)
	add	a0, a0, s11
	sd	a0, 488(sp)
	xor	a1, a0, t1
	srliw	a2, a1, 25
	slli	a1, a1, 7
	or	t2, a1, a2
	ld	a0, 224(sp)
	add	a0, a0, s7
	sd	a0, 320(sp)
	ld	a1, 80(sp)
	xor	a1, a1, a0
	srliw	a2, a1, 25
	slli	a1, a1, 7
	or	a7, a1, a2
	ld	a0, 216(sp)
	add	a0, a0, t6
	sd	a0, 312(sp)
	ld	a2, 168(sp)
	xor	a2, a2, a0
	srliw	a5, a2, 25
	slli	a2, a2, 7
	or	t1, a2, a5
	sd	t1, 256(sp)
	ld	a0, 368(sp)
	add	a0, a0, t3
	sd	a0, 568(sp)
	xor	a2, a0, t6
	srliw	a5, a2, 16
	slli	a2, a2, 16
	or	a2, a2, a5
	sd	a2, 416(sp)
	ld	a1, 608(sp)
	add	a1, a1, s9
	sd	a1, 608(sp)
	xor	a2, a1, s7
	srliw	a5, a2, 16
	slli	a2, a2, 16
	or	a2, a2, a5
	sd	a2, 368(sp)
	ld	a1, 600(sp)
	add	a1, a1, s4
	sd	a1, 600(sp)
	xor	a2, a1, s11
	srliw	a5, a2, 16
	slli	a2, a2, 16
	or	t6, a2, a5
	sd	t6, 80(sp)
	ld	a0, 560(sp)
	add	a0, a0, a4
	sd	a0, 560(sp)
	mv	s5, a4
	xor	a2, a0, s10
	srliw	a5, a2, 16
	slli	a2, a2, 16
	or	a1, a2, a5
	sd	a1, 176(sp)
	ld	a0, 424(sp)
	add	a0, a0, s1
	sd	a0, 424(sp)
	xor	a2, a0, ra
	srliw	a5, a2, 16
	slli	a2, a2, 16
	or	a2, a2, a5
	sd	a2, 296(sp)
	ld	a0, 392(sp)
	add	a0, a0, s0
	sd	a0, 392(sp)
	ld	a2, 272(sp)
	xor	a2, a2, a0
	srliw	a5, a2, 16
	slli	a2, a2, 16
	or	a2, a2, a5
	sd	a2, 280(sp)
	ld	a0, 384(sp)
	add	a0, a0, a6
	sd	a0, 384(sp)
	ld	a2, 328(sp)
	xor	a2, a2, a0
	srliw	a5, a2, 16
	slli	a2, a2, 16
	or	s2, a2, a5
	ld	a2, 376(sp)
	add	a2, a2, t5
	sd	a2, 376(sp)
	ld	a0, 200(sp)
	xor	a2, a2, a0
	srliw	a5, a2, 16
	slli	a2, a2, 16
	or	a0, a2, a5
	ld	a2, 440(sp)
	add	a2, a2, t1
	sd	a2, 328(sp)
	xor	a2, a2, s8
	srliw	a5, a2, 16
	slli	a2, a2, 16
	or	a2, a2, a5
	sd	a2, 224(sp)
	mv	s4, a7
	ld	a2, 472(sp)
	add	a3, a7, a2
	sd	a3, 472(sp)
	ld	a2, 344(sp)
	xor	a2, a2, a3
	srliw	a5, a2, 16
	slli	a2, a2, 16
	or	a2, a2, a5
	sd	a2, 216(sp)
	ld	a2, 464(sp)
	add	a3, t2, a2
	sd	a3, 344(sp)
	mv	s11, t2
	ld	a2, 360(sp)
	xor	a2, a2, a3
	srliw	a5, a2, 16
	slli	a2, a2, 16
	or	s6, a2, a5
	sd	s6, 72(sp)
	ld	a2, 456(sp)
	add	a4, t0, a2
	sd	a4, 456(sp)
	ld	a2, 400(sp)
	xor	a2, a2, a4
	srliw	a5, a2, 16
	slli	a2, a2, 16
	or	a3, a2, a5
	sd	a3, 168(sp)
	ld	a2, 616(sp)
	ld	ra, 504(sp)
	add	a2, a2, ra
	sd	a2, 240(sp)
	xor	a2, a2, s3
	srliw	a5, a2, 16
	slli	a2, a2, 16
	or	a2, a2, a5
	sd	a2, 136(sp)
	ld	t3, 552(sp)
	ld	a2, 640(sp)
	add	a4, t3, a2
	sd	a4, 360(sp)
	ld	a2, 448(sp)
	xor	a2, a2, a4
	srliw	a5, a2, 16
	slli	a2, a2, 16
	or	a7, a2, a5
	sd	a7, 56(sp)
	ld	s7, 584(sp)
	ld	a2, 632(sp)
	add	a4, s7, a2
	sd	a4, 264(sp)
	ld	a2, 480(sp)
	xor	a2, a2, a4
	srliw	a5, a2, 16
	slli	a2, a2, 16
	or	t2, a2, a5
	sd	t2, 96(sp)
	ld	s0, 592(sp)
	ld	a2, 624(sp)
	add	a4, s0, a2
	sd	a4, 624(sp)
	ld	a2, 512(sp)
	xor	a2, a2, a4
	srliw	s1, a2, 16
	slli	a2, a2, 16
	or	a5, a2, s1
	sd	a5, 208(sp)
	ld	a2, 544(sp)
	add	a2, a2, a1
	sd	a2, 640(sp)
	xor	a2, a2, s5
	srliw	s1, a2, 20
	slli	a2, a2, 12
	or	a2, a2, s1
	sd	a2, 160(sp)
	ld	a1, 536(sp)
	add	a2, t6, a1
	sd	a2, 632(sp)
	ld	a1, 304(sp)
	xor	a2, a2, a1
	srliw	s1, a2, 20
	slli	a2, a2, 12
	or	s5, a2, s1
	ld	t4, 368(sp)
	ld	a1, 528(sp)
	add	a2, t4, a1
	sd	a2, 616(sp)
	ld	a1, 408(sp)
	xor	a2, a2, a1
	srliw	s1, a2, 20
	slli	a2, a2, 12
	or	s9, a2, s1
	sd	s9, 112(sp)
	ld	s8, 416(sp)
	ld	a1, 520(sp)
	add	a2, s8, a1
	sd	a2, 512(sp)
	ld	a1, 432(sp)
	xor	a2, a2, a1
	srliw	a4, a2, 20
	slli	a2, a2, 12
	or	s1, a2, a4
	sd	s1, 200(sp)
	ld	a1, 496(sp)
	mv	t6, a0
	add	a1, a1, a0
	sd	a1, 496(sp)
	xor	a0, a1, t5
	srliw	a2, a0, 20
	slli	a0, a0, 12
	or	a0, a0, a2
	sd	a0, 152(sp)
	ld	a0, 488(sp)
	mv	t5, s2
	add	a0, a0, s2
	sd	a0, 488(sp)
	xor	a0, a0, a6
	srliw	a2, a0, 20
	slli	a0, a0, 12
	or	s10, a0, a2
	ld	s2, 280(sp)
	ld	a0, 320(sp)
	add	a1, s2, a0
	sd	a1, 320(sp)
	ld	a0, 288(sp)
	xor	a0, a0, a1
	srliw	a2, a0, 20
	slli	a0, a0, 12
	or	t1, a0, a2
	sd	t1, 120(sp)
	ld	s3, 296(sp)
	ld	a0, 312(sp)
	add	a1, s3, a0
	sd	a1, 312(sp)
	ld	a0, 336(sp)
	xor	a0, a0, a1
	srliw	a1, a0, 20
	slli	a0, a0, 12
	or	a6, a0, a1
	sd	a6, 192(sp)
	ld	a0, 680(sp)
	add	a0, a0, a3
	sd	a0, 336(sp)
	xor	a0, a0, t0
	srliw	a1, a0, 20
	slli	a0, a0, 12
	or	a0, a0, a1
	sd	a0, 144(sp)
	ld	a0, 672(sp)
	add	a0, a0, s6
	sd	a0, 304(sp)
	xor	a1, a0, s11
	srliw	a2, a1, 20
	slli	a1, a1, 12
	or	s6, a1, a2
	ld	a0, 664(sp)
	ld	s11, 216(sp)
	add	a0, a0, s11
	sd	a0, 288(sp)
	xor	a2, a0, s4
	srliw	a3, a2, 20
	slli	a2, a2, 12
	or	t0, a2, a3
	sd	t0, 104(sp)
	ld	a0, 656(sp)
	ld	a2, 224(sp)
	add	a0, a0, a2
	sd	a0, 272(sp)
	ld	a3, 256(sp)
	xor	a3, a3, a0
	srliw	a4, a3, 20
	slli	a3, a3, 12
	or	a3, a3, a4
	sd	a3, 184(sp)
	ld	a0, 648(sp)
	add	a0, a0, a5
	sd	a0, 232(sp)
	xor	a4, a0, s0
	srliw	s0, a4, 20
	slli	a4, a4, 12
	or	a4, a4, s0
	sd	a4, 128(sp)
	ld	a0, 576(sp)
	add	a0, a0, t2
	sd	a0, 576(sp)
	xor	s0, a0, s7
	srliw	t2, s0, 20
	slli	s0, s0, 12
	or	a0, s0, t2
	sd	a0, 64(sp)
	ld	a0, 696(sp)
	add	a0, a0, a7
	sd	a0, 256(sp)
	xor	s0, a0, t3
	srliw	t3, s0, 20
	slli	s0, s0, 12
	or	a5, s0, t3
	sd	a5, 88(sp)
	ld	a0, 688(sp)
	ld	a7, 136(sp)
	add	a0, a0, a7
	sd	a0, 248(sp)
	xor	s0, a0, ra
	srliw	a0, s0, 20
	slli	s0, s0, 12
	or	s0, s0, a0
	ld	a0, 568(sp)
	add	a0, a0, s1
	sd	a0, 400(sp)
	xor	a0, a0, s8
	srliw	a1, a0, 24
	slli	a0, a0, 8
	or	a0, a0, a1
	sd	a0, 696(sp)
	ld	a0, 608(sp)
	add	a0, a0, s9
	sd	a0, 408(sp)
	xor	a0, a0, t4
	srliw	a1, a0, 24
	slli	a0, a0, 8
	or	s7, a0, a1
	ld	a0, 600(sp)
	mv	ra, s5
	add	a0, a0, s5
	sd	a0, 448(sp)
	ld	a1, 80(sp)
	xor	a0, a0, a1
	srliw	a1, a0, 24
	slli	a0, a0, 8
	or	s4, a0, a1
	ld	a0, 560(sp)
	ld	s5, 160(sp)
	add	a0, a0, s5
	sd	a0, 416(sp)
	ld	a1, 176(sp)
	xor	a0, a0, a1
	srliw	a1, a0, 24
	slli	a0, a0, 8
	or	t4, a0, a1
	sd	t4, 600(sp)
	ld	a0, 424(sp)
	add	a0, a0, a6
	sd	a0, 424(sp)
	xor	a0, a0, s3
	srliw	a1, a0, 24
	slli	a0, a0, 8
	or	t3, a0, a1
	ld	a0, 392(sp)
	add	a0, a0, t1
	sd	a0, 432(sp)
	xor	a0, a0, s2
	srliw	a1, a0, 24
	slli	a0, a0, 8
	or	t1, a0, a1
	ld	a0, 384(sp)
	add	a0, a0, s10
	sd	a0, 672(sp)
	xor	a0, a0, t5
	srliw	a1, a0, 24
	slli	a0, a0, 8
	or	s3, a0, a1
	ld	a0, 376(sp)
	ld	t5, 152(sp)
	add	a0, a0, t5
	sd	a0, 440(sp)
	xor	a0, a0, t6
	srliw	a1, a0, 24
	slli	a0, a0, 8
	or	s8, a0, a1
	ld	a0, 328(sp)
	add	a0, a0, a3
	sd	a0, 464(sp)
	xor	a0, a0, a2
	srliw	a1, a0, 24
	slli	a0, a0, 8
	or	s9, a0, a1
	ld	a0, 472(sp)
	add	a0, a0, t0
	sd	a0, 472(sp)
	xor	a0, a0, s11
	srliw	a1, a0, 24
	slli	a0, a0, 8
	or	a6, a0, a1
	ld	t2, 344(sp)
	mv	a3, s6
	add	t2, t2, s6
	ld	a0, 72(sp)
	xor	a0, t2, a0
	srliw	a1, a0, 24
	slli	a0, a0, 8
	or	a4, a0, a1
	ld	a0, 456(sp)
	ld	a2, 144(sp)
	add	a0, a0, a2
	sd	a0, 480(sp)
	ld	a1, 168(sp)
	xor	a0, a0, a1
	srliw	a1, a0, 24
	slli	a0, a0, 8
	or	s6, a0, a1
	ld	a0, 240(sp)
	add	a0, a0, s0
	sd	a0, 528(sp)
	xor	a0, a0, a7
	srliw	a1, a0, 24
	slli	a0, a0, 8
	or	s11, a0, a1
	ld	a0, 360(sp)
	add	a0, a0, a5
	sd	a0, 536(sp)
	ld	a1, 56(sp)
	xor	a0, a0, a1
	srliw	a1, a0, 24
	slli	a0, a0, 8
	or	a7, a0, a1
	ld	a0, 264(sp)
	ld	s1, 64(sp)
	add	a0, a0, s1
	sd	a0, 392(sp)
	ld	a1, 96(sp)
	xor	a0, a0, a1
	srliw	a1, a0, 24
	slli	a0, a0, 8
	or	t6, a0, a1
	ld	a0, 624(sp)
	ld	a5, 128(sp)
	add	a0, a0, a5
	sd	a0, 544(sp)
	ld	a1, 208(sp)
	xor	a0, a0, a1
	srliw	a1, a0, 24
	slli	a0, a0, 8
	or	t0, a0, a1
	ld	a0, 640(sp)
	add	a0, a0, t4
	mv	t4, t3
	sd	a0, 656(sp)
	xor	a0, a0, s5
	srliw	a1, a0, 25
	slli	a0, a0, 7
	or	a0, a0, a1
	sd	a0, 520(sp)
	sd	s4, 664(sp)
	ld	a0, 632(sp)
	add	s2, s4, a0
	sd	s2, 624(sp)
	xor	a0, s2, ra
	srliw	a1, a0, 25
	slli	a0, a0, 7
	or	s2, a0, a1
	ld	a0, 616(sp)
	add	a0, a0, s7
	sd	a0, 648(sp)
	ld	a1, 112(sp)
	xor	a0, a0, a1
	srliw	a1, a0, 25
	slli	a0, a0, 7
	or	ra, a0, a1
	ld	a0, 512(sp)
	ld	a1, 696(sp)
	add	a0, a0, a1
	sd	a0, 640(sp)
	ld	a1, 200(sp)
	xor	a0, a0, a1
	srliw	a1, a0, 25
	slli	a0, a0, 7
	or	s5, a0, a1
	sd	s8, 688(sp)
	ld	a0, 496(sp)
	add	a0, a0, s8
	sd	a0, 632(sp)
	xor	a0, a0, t5
	srliw	a1, a0, 25
	slli	a0, a0, 7
	or	a0, a0, a1
	sd	a0, 568(sp)
	ld	a0, 488(sp)
	add	a0, a0, s3
	sd	a0, 608(sp)
	xor	a0, a0, s10
	srliw	a1, a0, 25
	slli	a0, a0, 7
	or	a0, a0, a1
	sd	a0, 560(sp)
	sd	t1, 360(sp)
	ld	a0, 320(sp)
	add	a0, a0, t1
	sd	a0, 616(sp)
	ld	a1, 120(sp)
	xor	a0, a0, a1
	srliw	a1, a0, 25
	slli	a0, a0, 7
	or	a0, a0, a1
	sd	a0, 552(sp)
	ld	s8, 312(sp)
	add	s8, s8, t3
	ld	a0, 192(sp)
	xor	a0, s8, a0
	srliw	a1, a0, 25
	slli	a0, a0, 7
	or	t5, a0, a1
	sd	s6, 680(sp)
	ld	a0, 336(sp)
	add	a0, a0, s6
	sd	a0, 512(sp)
	xor	a0, a0, a2
	srliw	a1, a0, 25
	slli	a0, a0, 7
	or	a0, a0, a1
	sd	a0, 592(sp)
	ld	a0, 304(sp)
	add	a0, a0, a4
	sd	a0, 376(sp)
	xor	a0, a0, a3
	mv	a2, t0
	mv	t0, s9
	srliw	a1, a0, 25
	slli	a0, a0, 7
	or	a0, a0, a1
	sd	a0, 584(sp)
	ld	s4, 288(sp)
	add	s4, s4, a6
	ld	a0, 104(sp)
	xor	a0, s4, a0
	srliw	a1, a0, 25
	slli	a0, a0, 7
	or	a0, a0, a1
	sd	a0, 384(sp)
	ld	a0, 272(sp)
	add	a0, a0, s9
	sd	a0, 504(sp)
	ld	a1, 184(sp)
	xor	a0, a0, a1
	srliw	a1, a0, 25
	slli	a0, a0, 7
	or	a0, a0, a1
	sd	a0, 368(sp)
	sd	a2, 456(sp)
	ld	a0, 232(sp)
	add	a2, a2, a0
	sd	a2, 496(sp)
	xor	a0, a2, a5
	srliw	a1, a0, 25
	slli	a0, a0, 7
	or	s6, a0, a1
	mv	s10, t6
	ld	a0, 576(sp)
	add	a0, a0, t6
	mv	t1, a7
	sd	a0, 576(sp)
	xor	a0, a0, s1
	mv	s1, t2
	srliw	a1, a0, 25
	slli	a0, a0, 7
	or	t6, a0, a1
	ld	a0, 256(sp)
	add	a0, a0, a7
	sd	a0, 488(sp)
	ld	a1, 88(sp)
	xor	a0, a0, a1
	srliw	a1, a0, 25
	slli	a0, a0, 7
	or	a2, a0, a1
	ld	a7, 248(sp)
	add	a7, a7, s11
	xor	s0, a7, s0
	srliw	a0, s0, 25
	slli	s0, s0, 7
	or	t2, s0, a0
	mv	s0, s7
	ld	a0, 352(sp)
	bnez	a0, .Lnoise_BB1_1
	ld	a0, 416(sp)
	sw	a0, 704(sp)
	ld	a0, 448(sp)
	sw	a0, 708(sp)
	ld	a0, 408(sp)
	sw	a0, 712(sp)
	ld	a0, 400(sp)
	sw	a0, 716(sp)
	ld	a0, 440(sp)
	sw	a0, 720(sp)
	ld	a0, 672(sp)
	sw	a0, 724(sp)
	ld	a0, 432(sp)
	sw	a0, 728(sp)
	ld	a0, 424(sp)
	sw	a0, 732(sp)
	ld	a0, 480(sp)
	sw	a0, 736(sp)
	sw	s1, 740(sp)
	ld	a0, 472(sp)
	sw	a0, 744(sp)
	ld	a0, 464(sp)
	sw	a0, 748(sp)
	ld	a0, 544(sp)
	sw	a0, 752(sp)
	ld	a0, 392(sp)
	sw	a0, 756(sp)
	ld	a0, 536(sp)
	sw	a0, 760(sp)
	ld	a0, 528(sp)
	sw	a0, 764(sp)
	sw	s6, 768(sp)
	sw	t6, 772(sp)
	sw	a2, 776(sp)
	sw	t2, 780(sp)
	ld	a0, 520(sp)
	sw	a0, 784(sp)
	sw	s2, 788(sp)
	sw	ra, 792(sp)
	sw	s5, 796(sp)
	ld	a0, 568(sp)
	sw	a0, 800(sp)
	ld	a0, 560(sp)
	sw	a0, 804(sp)
	ld	a0, 552(sp)
	sw	a0, 808(sp)
	sw	t5, 812(sp)
	ld	a0, 592(sp)
	sw	a0, 816(sp)
	ld	a0, 584(sp)
	sw	a0, 820(sp)
	ld	a0, 384(sp)
	sw	a0, 824(sp)
	ld	a0, 368(sp)
	sw	a0, 828(sp)
	ld	a0, 512(sp)
	sw	a0, 832(sp)
	ld	a0, 376(sp)
	sw	a0, 836(sp)
	sw	s4, 840(sp)
	ld	a0, 504(sp)
	sw	a0, 844(sp)
	ld	a0, 496(sp)
	sw	a0, 848(sp)
	ld	a0, 576(sp)
	sw	a0, 852(sp)
	ld	a0, 488(sp)
	sw	a0, 856(sp)
	sw	a7, 860(sp)
	ld	a0, 656(sp)
	sw	a0, 864(sp)
	ld	a0, 624(sp)
	sw	a0, 868(sp)
	ld	a0, 648(sp)
	sw	a0, 872(sp)
	ld	a0, 640(sp)
	sw	a0, 876(sp)
	ld	a0, 632(sp)
	sw	a0, 880(sp)
	ld	a0, 608(sp)
	sw	a0, 884(sp)
	ld	a0, 616(sp)
	sw	a0, 888(sp)
	sw	s8, 892(sp)
	ld	a0, 688(sp)
	sw	a0, 896(sp)
	sw	s3, 900(sp)
	ld	a0, 360(sp)
	sw	a0, 904(sp)
	sw	t4, 908(sp)
	ld	a0, 680(sp)
	sw	a0, 912(sp)
	sw	a4, 916(sp)
	sw	a6, 920(sp)
	sw	t0, 924(sp)
	ld	a0, 456(sp)
	sw	a0, 928(sp)
	sw	s10, 932(sp)
	sw	t1, 936(sp)
	sw	s11, 940(sp)
	ld	a0, 600(sp)
	sw	a0, 944(sp)
	ld	a0, 664(sp)
	sw	a0, 948(sp)
	sw	s0, 952(sp)
	ld	a0, 696(sp)
	sw	a0, 956(sp)
	ld	a0, 16(sp)
	addi	a0, a0, 128
	addi	a1, sp, 704
	addi	a2, sp, 960
	addi	a6, sp, 960
.Lnoise_BB1_3:
	lw	a7, 0(a1)
	lw	t0, 4(a1)
	lw	s1, 8(a1)
	lw	s0, 12(a1)
	lw	t1, 0(a2)
	lw	a4, 4(a2)
	lw	a5, 12(a2)
	lw	a3, 8(a2)
	addi	a1, a1, 16
	addi	a2, a2, 16
	add	a5, a5, s0
	add	a3, a3, s1
	add	a4, a4, t0
	add	a7, a7, t1
	sw	a7, -128(a0)
	sw	a4, -64(a0)
	sw	a3, 0(a0)
	sw	a5, 64(a0)
	addi	a0, a0, 4
	bne	a1, a6, .Lnoise_BB1_3
	ld	ra, 1320(sp)
	ld	s0, 1312(sp)
	ld	s1, 1304(sp)
	ld	s2, 1296(sp)
	ld	s3, 1288(sp)
	ld	s4, 1280(sp)
	ld	s5, 1272(sp)
	ld	s6, 1264(sp)
	ld	s7, 1256(sp)
	ld	s8, 1248(sp)
	ld	s9, 1240(sp)
	ld	s10, 1232(sp)
	ld	s11, 1224(sp)
	.cfi_restore ra
	.cfi_restore s0
	.cfi_restore s1
	.cfi_restore s2
	.cfi_restore s3
	.cfi_restore s4
	.cfi_restore s5
	.cfi_restore s6
	.cfi_restore s7
	.cfi_restore s8
	.cfi_restore s9
	.cfi_restore s10
	.cfi_restore s11
	addi	sp, sp, 1328
	.cfi_def_cfa_offset 0
	ret
.Lnoise_func_end1:
	.size	noise_rand_chacha_guts_refill4, .Lnoise_func_end1-noise_rand_chacha_guts_refill4
	.cfi_endproc

	.section	".text.noise_aead::authenticator::tag","ax",@progbits
	.p2align	1
	.type	noise_noise_aead_authenticator_tag,@function
noise_noise_aead_authenticator_tag:
	.cfi_startproc
	addi	sp, sp, -272
	.cfi_def_cfa_offset 272
	sd	ra, 264(sp)
	sd	s0, 256(sp)
	sd	s1, 248(sp)
	sd	s2, 240(sp)
	sd	s3, 232(sp)
	sd	s4, 224(sp)
	sd	s5, 216(sp)
	sd	s6, 208(sp)
	sd	s7, 200(sp)
	sd	s8, 192(sp)
	sd	s9, 184(sp)
	sd	s10, 176(sp)
	sd	s11, 168(sp)
	.cfi_offset ra, -8
	.cfi_offset s0, -16
	.cfi_offset s1, -24
	.cfi_offset s2, -32
	.cfi_offset s3, -40
	.cfi_offset s4, -48
	.cfi_offset s5, -56
	.cfi_offset s6, -64
	.cfi_offset s7, -72
	.cfi_offset s8, -80
	.cfi_offset s9, -88
	.cfi_offset s10, -96
	.cfi_offset s11, -104
	mv	s2, a5
	mv	s3, a4
	mv	s4, a3
	mv	a6, a2
	mv	s5, a0
	lbu	a7, 0(a1)
	lbu	t2, 1(a1)
	lbu	t4, 2(a1)
	lbu	t3, 3(a1)
	lbu	t0, 4(a1)
	lbu	t5, 5(a1)
	lbu	t6, 6(a1)
	lbu	s7, 7(a1)
	lbu	t1, 8(a1)
	lbu	s8, 9(a1)
	lbu	s9, 10(a1)
	lbu	s10, 11(a1)
	lbu	s6, 24(a1)
	lbu	a5, 25(a1)
	lbu	a2, 26(a1)
	lbu	s1, 27(a1)
	lbu	s0, 28(a1)
	lbu	a0, 29(a1)
	lbu	s11, 30(a1)
	lbu	ra, 31(a1)
	sb	a2, 74(sp)
	sb	s1, 75(sp)
	lbu	a2, 20(a1)
	lbu	s1, 21(a1)
	lbu	a3, 22(a1)
	lbu	a4, 23(a1)
	sb	s0, 76(sp)
	sb	a0, 77(sp)
	sb	a3, 70(sp)
	sb	a4, 71(sp)
	lbu	s0, 16(a1)
	lbu	a0, 17(a1)
	lbu	a3, 18(a1)
	lbu	a4, 19(a1)
	sb	s6, 72(sp)
	sb	a5, 73(sp)
	sb	a3, 66(sp)
	lbu	a3, 12(a1)
	lbu	a5, 13(a1)
	lbu	s6, 14(a1)
	lbu	a1, 15(a1)
	sb	a4, 67(sp)
	sb	a2, 68(sp)
	sb	s1, 69(sp)
	lui	a2, 16
	slli	s6, s6, 16
	slli	a1, a1, 24
	or	a1, a1, s6
	li	a4, -63
	sd	zero, 16(sp)
	sd	zero, 24(sp)
	sd	zero, 32(sp)
	sd	zero, 40(sp)
	addi	s6, a2, -1
	slli	a4, a4, 32
	slli	a5, a5, 8
	or	a3, a3, a5
	addi	a2, a4, -1
	addi	a4, a4, -49
	srli	a2, a2, 4
	srli	a4, a4, 4
	slli	s9, s9, 16
	slli	s10, s10, 24
	slli	s8, s8, 8
	slli	t6, t6, 16
	slli	s7, s7, 24
	slli	t5, t5, 8
	slli	t4, t4, 16
	slli	t3, t3, 24
	slli	t2, t2, 8
	sb	s11, 78(sp)
	sb	ra, 79(sp)
	sd	zero, 80(sp)
	sd	zero, 88(sp)
	or	s9, s10, s9
	or	s8, t1, s8
	or	t1, s7, t6
	or	t5, t0, t5
	or	t0, t3, t4
	or	s1, a7, t2
	and	a3, a3, s6
	and	a5, s8, s6
	and	a7, t5, s6
	and	s1, s1, s6
	or	a1, a1, a3
	or	a3, a5, s9
	or	a5, a7, t1
	or	s1, s1, t0
	slli	a1, a1, 32
	slli	a3, a3, 32
	slli	a5, a5, 32
	slli	s1, s1, 32
	srli	a3, a3, 32
	srli	s1, s1, 32
	or	a1, a1, a3
	or	a5, a5, s1
	and	a2, a2, a5
	and	a1, a1, a4
	sd	a2, 48(sp)
	sd	a1, 56(sp)
	sb	s0, 64(sp)
	sb	a0, 65(sp)
	sd	zero, 96(sp)
	sd	zero, 104(sp)
	addi	a0, sp, 16
	mv	a1, a6
	mv	a2, s4
	call	noise_noise_poly_Poly1305_update
	neg	a2, s4
	andi	a2, a2, 15
.Lnoise_pcrel_hi0:
	auipc	s1, %pcrel_hi(.Lnoise_static.0)
	addi	s1, s1, %pcrel_lo(.Lnoise_pcrel_hi0)
	addi	a0, sp, 16
	mv	a1, s1
	call	noise_noise_poly_Poly1305_update
	addi	a0, sp, 16
	mv	a1, s3
	mv	a2, s2
	call	noise_noise_poly_Poly1305_update
	neg	a2, s2
	andi	a2, a2, 15
	addi	a0, sp, 16
	mv	a1, s1
	call	noise_noise_poly_Poly1305_update
	sd	s4, 0(sp)
	sd	s2, 8(sp)
	addi	a0, sp, 16
	mv	a1, sp
	li	a2, 16
	li	s0, 16
	call	noise_noise_poly_Poly1305_update
	ld	s4, 16(sp)
	ld	s9, 24(sp)
	ld	s7, 32(sp)
	ld	s8, 48(sp)
	ld	s10, 56(sp)
	ld	s3, 64(sp)
	ld	s2, 72(sp)
	ld	a0, 80(sp)
	ld	a1, 88(sp)
	ld	s1, 96(sp)
	ld	a2, 104(sp)
	sd	a0, 112(sp)
	sd	a1, 120(sp)
	sd	s1, 128(sp)
	sd	a2, 136(sp)
	beqz	s1, .Lnoise_BB2_5
	sltiu	a0, s1, 16
	sub	s0, s0, s1
	neg	a2, a0
	and	a2, a2, s0
	addi	s0, sp, 152
	add	s0, s0, s1
	mv	a0, s0
	li	a1, 0
	call	memset
	addi	a0, sp, 152
	addi	a1, sp, 112
	mv	a2, s1
	call	memcpy
	li	a0, 1
	sb	a0, 0(s0)
	lbu	a6, 152(sp)
	lbu	t0, 153(sp)
	lbu	t1, 154(sp)
	lbu	t2, 155(sp)
	lbu	a7, 156(sp)
	lbu	t5, 157(sp)
	lbu	s1, 158(sp)
	lbu	s0, 159(sp)
	lbu	t3, 164(sp)
	lbu	a4, 165(sp)
	lbu	a1, 166(sp)
	lbu	a2, 167(sp)
	lbu	t4, 160(sp)
	lbu	a0, 161(sp)
	lbu	a3, 162(sp)
	lbu	a5, 163(sp)
	slli	a1, a1, 16
	slli	a2, a2, 24
	slli	a4, a4, 8
	slli	a3, a3, 16
	slli	a5, a5, 24
	slli	a0, a0, 8
	slli	s1, s1, 16
	slli	s0, s0, 24
	slli	t5, t5, 8
	slli	t1, t1, 16
	slli	t2, t2, 24
	slli	t0, t0, 8
	or	a1, a1, a2
	or	a2, t3, a4
	or	a3, a3, a5
	or	a0, t4, a0
	or	s0, s0, s1
	or	a4, a7, t5
	or	a5, t2, t1
	or	s1, a6, t0
	and	a2, a2, s6
	and	a0, a0, s6
	and	a4, a4, s6
	and	s1, s1, s6
	or	a1, a1, a2
	or	a0, a0, a3
	or	a4, a4, s0
	or	a5, a5, s1
	slli	a1, a1, 32
	slli	a0, a0, 32
	slli	a4, a4, 32
	slli	a5, a5, 32
	srli	a0, a0, 32
	or	a0, a0, a1
	srli	a1, a5, 32
	not	a2, a0
	or	a1, a1, a4
	beq	s9, a2, .Lnoise_BB2_3
	sltu	a2, a2, s9
	j	.Lnoise_BB2_4
.Lnoise_BB2_3:
	not	a2, a1
	sltu	a2, a2, s4
.Lnoise_BB2_4:
	add	s9, s9, a0
	add	a1, a1, s4
	add	a2, a2, s7
	srli	a3, s10, 2
	sltu	a4, a1, s4
	add	a3, a3, s10
	mulhu	a6, a1, s8
	mul	a7, a1, s8
	mul	s0, a1, s10
	mulhu	a1, a1, s10
	mul	a0, a2, s8
	add	a4, a4, s9
	mul	a2, a2, a3
	mulhu	a5, a4, a3
	mul	a3, a4, a3
	mul	s1, a4, s8
	mulhu	a4, a4, s8
	add	a7, a7, a3
	add	a5, a5, a6
	add	a1, a1, a4
	add	s1, s1, s0
	sltu	a3, a7, a3
	sltu	a4, s1, s0
	add	a2, a2, s1
	add	a3, a3, a5
	add	a1, a1, a4
	sltu	a4, a2, s1
	add	a1, a1, a4
	add	a3, a3, a2
	sltu	a2, a3, a2
	add	a0, a0, a1
	addi	a1, a3, 1
	add	a0, a0, a2
	seqz	a1, a1
	srli	a2, a0, 2
	andi	a4, a0, -4
	add	a2, a2, a4
	not	a4, a2
	add	s4, a7, a2
	sltu	a2, a4, a7
	sltu	s9, s4, a7
	and	a1, a1, a2
	add	s9, s9, a3
	andi	a0, a0, 3
	add	s7, a0, a1
.Lnoise_BB2_5:
	srli	a0, s7, 2
	andi	a1, s7, -4
	addi	a2, s9, 1
	add	s3, s3, s4
	add	s2, s2, s9
	add	a0, a0, a1
	seqz	a1, a2
	sltu	a2, s3, s4
	addi	a0, a0, 5
	add	s2, s2, a2
	not	a0, a0
	sltu	a0, a0, s4
	and	a0, a0, a1
	add	a0, a0, s7
	srli	a1, a0, 2
	andi	a0, a0, -4
	add	a0, a0, a1
	add	a0, a0, s3
	sltu	a6, a0, s3
	srli	a3, a0, 8
	srli	a4, a0, 16
	srli	a5, a0, 24
	srli	s1, a0, 32
	srli	s0, a0, 40
	srli	a2, a0, 48
	srli	a1, a0, 56
	add	a6, a6, s2
	sb	a0, 0(s5)
	sb	a3, 1(s5)
	sb	a4, 2(s5)
	sb	a5, 3(s5)
	sb	s1, 4(s5)
	sb	s0, 5(s5)
	sb	a2, 6(s5)
	sb	a1, 7(s5)
	srli	a0, a6, 8
	srli	a1, a6, 16
	srli	a2, a6, 24
	srli	a3, a6, 32
	srli	a4, a6, 40
	srli	a5, a6, 48
	srli	s1, a6, 56
	sb	a6, 8(s5)
	sb	a0, 9(s5)
	sb	a1, 10(s5)
	sb	a2, 11(s5)
	sb	a3, 12(s5)
	sb	a4, 13(s5)
	sb	a5, 14(s5)
	sb	s1, 15(s5)
	ld	ra, 264(sp)
	ld	s0, 256(sp)
	ld	s1, 248(sp)
	ld	s2, 240(sp)
	ld	s3, 232(sp)
	ld	s4, 224(sp)
	ld	s5, 216(sp)
	ld	s6, 208(sp)
	ld	s7, 200(sp)
	ld	s8, 192(sp)
	ld	s9, 184(sp)
	ld	s10, 176(sp)
	ld	s11, 168(sp)
	.cfi_restore ra
	.cfi_restore s0
	.cfi_restore s1
	.cfi_restore s2
	.cfi_restore s3
	.cfi_restore s4
	.cfi_restore s5
	.cfi_restore s6
	.cfi_restore s7
	.cfi_restore s8
	.cfi_restore s9
	.cfi_restore s10
	.cfi_restore s11
	addi	sp, sp, 272
	.cfi_def_cfa_offset 0
	ret
.Lnoise_func_end2:
	.size	noise_noise_aead_authenticator_tag, .Lnoise_func_end2-noise_noise_aead_authenticator_tag
	.cfi_endproc

	.section	".text.noise_poly::Poly1305::update","ax",@progbits
	.p2align	1
	.type	noise_noise_poly_Poly1305_update,@function
noise_noise_poly_Poly1305_update:
	.cfi_startproc
	addi	sp, sp, -128
	.cfi_def_cfa_offset 128
	sd	ra, 120(sp)
	sd	s0, 112(sp)
	sd	s1, 104(sp)
	sd	s2, 96(sp)
	sd	s3, 88(sp)
	sd	s4, 80(sp)
	sd	s5, 72(sp)
	sd	s6, 64(sp)
	sd	s7, 56(sp)
	sd	s8, 48(sp)
	sd	s9, 40(sp)
	sd	s10, 32(sp)
	sd	s11, 24(sp)
	.cfi_offset ra, -8
	.cfi_offset s0, -16
	.cfi_offset s1, -24
	.cfi_offset s2, -32
	.cfi_offset s3, -40
	.cfi_offset s4, -48
	.cfi_offset s5, -56
	.cfi_offset s6, -64
	.cfi_offset s7, -72
	.cfi_offset s8, -80
	.cfi_offset s9, -88
	.cfi_offset s10, -96
	.cfi_offset s11, -104
	.cfi_remember_state
	beqz	a2, .Lnoise_BB3_10
	ld	s0, 80(a0)
	beqz	s0, .Lnoise_BB3_16
	li	s1, 16
	sub	s1, s1, s0
	bgeu	a2, s1, .Lnoise_BB3_6
	add	a3, a0, s0
	addi	a3, a3, 64
	sub	a4, a3, a1
	bgeu	a4, a2, .Lnoise_BB3_8
	add	a4, a1, a2
.Lnoise_BB3_5:
	lbu	a5, 0(a1)
	addi	a1, a1, 1
	sb	a5, 0(a3)
	addi	a3, a3, 1
	bne	a1, a4, .Lnoise_BB3_5
	j	.Lnoise_BB3_9
.Lnoise_BB3_6:
	add	s0, s0, a0
	addi	a3, s0, 64
	sub	a4, a3, a1
	add	s5, a1, s1
	bgeu	a4, s1, .Lnoise_BB3_11
.Lnoise_BB3_7:
	lbu	a4, 0(a1)
	addi	a1, a1, 1
	sb	a4, 0(a3)
	addi	a3, a3, 1
	bne	a1, s5, .Lnoise_BB3_7
	j	.Lnoise_BB3_12
.Lnoise_BB3_8:
	mv	s2, a0
	mv	a0, a3
	mv	s1, a2
	call	memmove
	mv	a2, s1
	mv	a0, s2
.Lnoise_BB3_9:
	add	a2, a2, s0
	sd	a2, 80(a0)
.Lnoise_BB3_10:
	ld	ra, 120(sp)
	ld	s0, 112(sp)
	ld	s1, 104(sp)
	ld	s2, 96(sp)
	ld	s3, 88(sp)
	ld	s4, 80(sp)
	ld	s5, 72(sp)
	ld	s6, 64(sp)
	ld	s7, 56(sp)
	ld	s8, 48(sp)
	ld	s9, 40(sp)
	ld	s10, 32(sp)
	ld	s11, 24(sp)
	.cfi_restore ra
	.cfi_restore s0
	.cfi_restore s1
	.cfi_restore s2
	.cfi_restore s3
	.cfi_restore s4
	.cfi_restore s5
	.cfi_restore s6
	.cfi_restore s7
	.cfi_restore s8
	.cfi_restore s9
	.cfi_restore s10
	.cfi_restore s11
	addi	sp, sp, 128
	.cfi_def_cfa_offset 0
	ret
.Lnoise_BB3_11:
	.cfi_restore_state
	mv	s2, a0
	mv	a0, a3
	mv	s0, a2
	mv	a2, s1
	call	memmove
	mv	a2, s0
	mv	a0, s2
.Lnoise_BB3_12:
	sub	a2, a2, s1
	sd	a2, 16(sp)
	lbu	a6, 0(a0)
	lbu	a7, 1(a0)
	lbu	t1, 2(a0)
	lbu	s4, 3(a0)
	lbu	t0, 4(a0)
	lbu	s10, 5(a0)
	lbu	a4, 6(a0)
	lbu	a5, 7(a0)
	lbu	t2, 8(a0)
	lbu	t3, 9(a0)
	lbu	t5, 10(a0)
	lbu	t6, 11(a0)
	lbu	t4, 12(a0)
	lbu	s6, 13(a0)
	lbu	s8, 14(a0)
	lbu	s9, 15(a0)
	lbu	s2, 16(a0)
	lbu	s7, 17(a0)
	lbu	s11, 18(a0)
	lbu	a1, 19(a0)
	lbu	s3, 20(a0)
	lbu	a3, 21(a0)
	lbu	s0, 22(a0)
	lbu	s1, 23(a0)
	slli	a7, a7, 8
	slli	t1, t1, 16
	slli	s4, s4, 24
	slli	s10, s10, 8
	slli	a4, a4, 16
	slli	a5, a5, 24
	or	a2, a7, a6
	sd	a2, 8(sp)
	or	a6, s4, t1
	or	t0, s10, t0
	or	a7, a5, a4
	lbu	ra, 70(a0)
	lbu	a5, 71(a0)
	lbu	s10, 72(a0)
	lbu	a4, 73(a0)
	slli	t3, t3, 8
	slli	t5, t5, 16
	slli	t6, t6, 24
	slli	s6, s6, 8
	slli	s8, s8, 16
	slli	s9, s9, 24
	or	t2, t3, t2
	or	t3, t6, t5
	or	t4, s6, t4
	or	t5, s9, s8
	lbu	s6, 74(a0)
	lbu	s8, 75(a0)
	lbu	s9, 76(a0)
	lbu	s4, 77(a0)
	slli	s7, s7, 8
	slli	s11, s11, 16
	slli	a1, a1, 24
	or	t6, s7, s2
	or	s2, a1, s11
	lbu	a1, 78(a0)
	lbu	s7, 79(a0)
	slli	s11, a3, 8
	slli	s0, s0, 16
	slli	s1, s1, 24
	slli	a1, a1, 16
	slli	s7, s7, 24
	slli	a3, s4, 8
	or	s4, s11, s3
	or	s11, s1, s0
	or	s3, s7, a1
	or	s7, s9, a3
	lbu	s9, 66(a0)
	lbu	s0, 67(a0)
	lbu	s1, 68(a0)
	lbu	a1, 69(a0)
	slli	s6, s6, 16
	slli	s8, s8, 24
	slli	a4, a4, 8
	slli	ra, ra, 16
	slli	a5, a5, 24
	slli	a1, a1, 8
	or	s8, s8, s6
	or	a2, s10, a4
	or	s10, a5, ra
	or	ra, s1, a1
	ld	t1, 32(a0)
	ld	s6, 40(a0)
	lbu	a3, 64(a0)
	lbu	a5, 65(a0)
	slli	s9, s9, 16
	slli	s0, s0, 24
	or	s9, s0, s9
	slli	a5, a5, 8
	or	a3, a3, a5
	ld	a1, 8(sp)
	or	a6, a6, a1
	or	a1, a7, t0
	or	a7, t3, t2
	or	t2, t5, t4
	lui	a4, 16
	addi	a4, a4, -1
	or	t0, s2, t6
	or	s0, s11, s4
	and	s1, s7, a4
	and	a2, a2, a4
	and	a5, ra, a4
	and	a3, a3, a4
	slli	a1, a1, 32
	slli	t2, t2, 32
	slli	s0, s0, 32
	or	a4, s1, s3
	or	a2, a2, s8
	or	s1, a5, s10
	or	a3, a3, s9
	or	a1, a1, a6
	or	a5, t2, a7
	or	a6, s0, t0
	slli	a4, a4, 32
	slli	a2, a2, 32
	slli	s1, s1, 32
	slli	s0, a3, 32
	srli	a2, a2, 32
	or	a3, a2, a4
	srli	s0, s0, 32
	not	a4, a3
	or	s0, s0, s1
	beq	a5, a4, .Lnoise_BB3_14
	sltu	a4, a4, a5
	j	.Lnoise_BB3_15
.Lnoise_BB3_14:
	not	a2, s0
	sltu	a4, a2, a1
.Lnoise_BB3_15:
	add	a3, a3, a5
	add	s0, s0, a1
	add	a4, a4, a6
	srli	a2, s6, 2
	sltu	a1, s0, a1
	addi	a4, a4, 1
	add	a2, a2, s6
	mulhu	a6, s0, t1
	mul	a7, s0, t1
	mul	a5, s0, s6
	mulhu	t0, s0, s6
	add	a1, a1, a3
	mul	a3, a4, a2
	mul	a4, a4, t1
	mulhu	s1, a1, a2
	mul	a2, a1, a2
	mul	s0, a1, t1
	mulhu	a1, a1, t1
	add	a7, a7, a2
	add	a6, a6, s1
	add	a1, a1, t0
	add	s0, s0, a5
	sltu	a2, a7, a2
	sltu	a5, s0, a5
	add	a3, a3, s0
	add	a2, a2, a6
	add	a1, a1, a5
	sltu	a5, a3, s0
	add	a1, a1, a5
	add	a2, a2, a3
	sltu	a3, a2, a3
	add	a1, a1, a4
	addi	a4, a2, 1
	add	a1, a1, a3
	seqz	a3, a4
	srli	a4, a1, 2
	andi	a5, a1, -4
	andi	a1, a1, 3
	add	a4, a4, a5
	not	a5, a4
	add	a4, a4, a7
	sltu	a5, a5, a7
	sltu	s1, a4, a7
	and	a3, a3, a5
	add	a2, a2, s1
	add	a1, a1, a3
	sd	a4, 0(a0)
	sd	a2, 8(a0)
	sd	a1, 16(a0)
	sd	zero, 24(a0)
	sd	zero, 80(a0)
	mv	a1, s5
	ld	a2, 16(sp)
.Lnoise_BB3_16:
	ld	ra, 120(sp)
	ld	s0, 112(sp)
	ld	s1, 104(sp)
	ld	s2, 96(sp)
	ld	s3, 88(sp)
	ld	s4, 80(sp)
	ld	s5, 72(sp)
	ld	s6, 64(sp)
	ld	s7, 56(sp)
	ld	s8, 48(sp)
	ld	s9, 40(sp)
	ld	s10, 32(sp)
	ld	s11, 24(sp)
	.cfi_restore ra
	.cfi_restore s0
	.cfi_restore s1
	.cfi_restore s2
	.cfi_restore s3
	.cfi_restore s4
	.cfi_restore s5
	.cfi_restore s6
	.cfi_restore s7
	.cfi_restore s8
	.cfi_restore s9
	.cfi_restore s10
	.cfi_restore s11
	addi	sp, sp, 128
	.cfi_def_cfa_offset 0
	tail	noise_noise_poly_Poly1305_take_aligned
.Lnoise_func_end3:
	.size	noise_noise_poly_Poly1305_update, .Lnoise_func_end3-noise_noise_poly_Poly1305_update
	.cfi_endproc

	.section	".text.noise_poly::Poly1305::take_aligned","ax",@progbits
	.p2align	1
	.type	noise_noise_poly_Poly1305_take_aligned,@function
noise_noise_poly_Poly1305_take_aligned:
	.cfi_startproc
	li	a3, 1023
	bltu	a3, a2, .Lnoise_BB4_3
	addi	sp, sp, -128
	.cfi_def_cfa_offset 128
	sd	ra, 120(sp)
	sd	s0, 112(sp)
	sd	s1, 104(sp)
	sd	s2, 96(sp)
	sd	s3, 88(sp)
	sd	s4, 80(sp)
	sd	s5, 72(sp)
	sd	s6, 64(sp)
	sd	s7, 56(sp)
	sd	s8, 48(sp)
	sd	s9, 40(sp)
	sd	s10, 32(sp)
	sd	s11, 24(sp)
	.cfi_offset ra, -8
	.cfi_offset s0, -16
	.cfi_offset s1, -24
	.cfi_offset s2, -32
	.cfi_offset s3, -40
	.cfi_offset s4, -48
	.cfi_offset s5, -56
	.cfi_offset s6, -64
	.cfi_offset s7, -72
	.cfi_offset s8, -80
	.cfi_offset s9, -88
	.cfi_offset s10, -96
	.cfi_offset s11, -104
	.cfi_remember_state
	lbu	t0, 8(a0)
	lbu	t4, 9(a0)
	lbu	a5, 10(a0)
	lbu	s1, 11(a0)
	lbu	a6, 12(a0)
	lbu	a7, 13(a0)
	lbu	t1, 14(a0)
	lbu	t2, 15(a0)
	lbu	t3, 0(a0)
	lbu	a3, 1(a0)
	lbu	s0, 2(a0)
	lbu	a4, 3(a0)
	slli	t4, t4, 8
	slli	a5, a5, 16
	slli	s1, s1, 24
	or	t0, t4, t0
	or	t4, s1, a5
	lbu	t5, 4(a0)
	lbu	t6, 5(a0)
	lbu	s2, 6(a0)
	lbu	s1, 7(a0)
	slli	a7, a7, 8
	slli	t1, t1, 16
	slli	t2, t2, 24
	slli	a3, a3, 8
	slli	s0, s0, 16
	slli	a4, a4, 24
	or	a6, a7, a6
	or	a7, t2, t1
	or	t1, a3, t3
	or	t2, a4, s0
	lbu	s0, 16(a0)
	lbu	a3, 17(a0)
	lbu	a4, 18(a0)
	lbu	a5, 19(a0)
	slli	t6, t6, 8
	slli	s2, s2, 16
	slli	s1, s1, 24
	slli	a3, a3, 8
	slli	a4, a4, 16
	slli	a5, a5, 24
	or	t3, t6, t5
	or	t6, s1, s2
	or	t5, a3, s0
	or	s2, a5, a4
	lbu	a5, 21(a0)
	lbu	s0, 20(a0)
	lbu	a3, 22(a0)
	lbu	s1, 23(a0)
	slli	a5, a5, 8
	or	a5, a5, s0
	slli	a3, a3, 16
	slli	s1, s1, 24
	or	a3, a3, s1
	or	s1, t4, t0
	or	s0, a7, a6
	or	a6, t2, t1
	or	a4, t6, t3
	or	a7, s2, t5
	or	a3, a3, a5
	slli	s0, s0, 32
	or	t2, s0, s1
	li	s1, 16
	slli	a4, a4, 32
	slli	a3, a3, 32
	or	s2, a4, a6
	or	t1, a3, a7
	bgeu	a2, s1, .Lnoise_BB4_5
	lbu	a3, 25(a0)
	lbu	a4, 26(a0)
	lbu	s1, 27(a0)
	lbu	s0, 24(a0)
	slli	a3, a3, 8
	slli	a4, a4, 16
	slli	s1, s1, 24
	or	a6, a3, s0
	or	a7, s1, a4
	lbu	s1, 29(a0)
	lbu	s0, 28(a0)
	lbu	a3, 30(a0)
	lbu	a4, 31(a0)
	slli	s1, s1, 8
	or	s0, s0, s1
	slli	a3, a3, 16
	slli	a4, a4, 24
	or	a3, a3, a4
	or	a4, a7, a6
	or	a3, a3, s0
	slli	a3, a3, 32
	or	s0, a3, a4
	j	.Lnoise_BB4_12
.Lnoise_BB4_3:
	srli	a3, a2, 16
	bnez	a3, .Lnoise_BB4_10
	tail	noise_noise_poly_Poly1305_take_fours
.Lnoise_BB4_5:
	.cfi_restore_state
	.cfi_remember_state
	ld	a6, 40(a0)
	ld	t3, 32(a0)
	li	a7, -1
	srli	t0, a6, 2
	add	t0, t0, a6
	j	.Lnoise_BB4_8
.Lnoise_BB4_6:
	sltu	a4, a5, t2
.Lnoise_BB4_7:
	addi	a1, a1, 16
	addi	a2, a2, -16
	add	t2, t2, s0
	add	s1, s1, s2
	add	a4, a4, t1
	sltu	a3, s1, s2
	addi	t1, a4, 1
	and	a5, s1, a7
	add	a3, a3, t2
	mul	s1, a5, t3
	mulhu	t2, a5, t3
	mul	a4, a5, a6
	mulhu	a5, a5, a6
	mulhu	s0, a3, t0
	add	t2, t2, s0
	mulhu	s0, a3, t3
	add	t4, a5, s0
	mul	s0, a3, t0
	add	s0, s0, s1
	sltu	s1, s0, s1
	add	t2, t2, s1
	mul	s1, t1, t0
	mul	a5, t1, t3
	mul	a3, a3, t3
	add	a3, a3, a4
	sltu	a4, a3, a4
	add	s1, s1, a3
	and	s0, s0, a7
	add	a4, a4, t4
	sltu	a3, s1, a3
	add	a3, a3, a4
	add	t2, t2, s1
	sltu	a4, t2, s1
	add	a3, a3, a5
	addi	a5, t2, 1
	add	a3, a3, a4
	seqz	a4, a5
	srli	a5, a3, 2
	andi	s1, a3, -4
	andi	a3, a3, 3
	add	a5, a5, s1
	not	s1, a5
	add	s2, s0, a5
	sltu	a5, s1, s0
	sltu	s1, s2, s0
	and	a4, a4, a5
	add	t2, t2, s1
	li	a5, 15
	add	t1, a3, a4
	bgeu	a5, a2, .Lnoise_BB4_11
.Lnoise_BB4_8:
	lbu	t4, 0(a1)
	lbu	t6, 1(a1)
	lbu	s4, 2(a1)
	lbu	s3, 3(a1)
	lbu	t5, 4(a1)
	lbu	s6, 5(a1)
	lbu	s8, 6(a1)
	lbu	s9, 7(a1)
	lbu	s5, 12(a1)
	lbu	s1, 13(a1)
	lbu	s0, 14(a1)
	lbu	a3, 15(a1)
	lbu	s7, 8(a1)
	lbu	s10, 9(a1)
	lbu	a5, 10(a1)
	lbu	a4, 11(a1)
	slli	s0, s0, 16
	slli	a3, a3, 24
	or	s11, a3, s0
	lui	s0, 16
	addi	s0, s0, -1
	slli	s1, s1, 8
	slli	a5, a5, 16
	slli	a4, a4, 24
	slli	s10, s10, 8
	slli	s8, s8, 16
	slli	s9, s9, 24
	slli	s6, s6, 8
	slli	s4, s4, 16
	slli	s3, s3, 24
	slli	t6, t6, 8
	or	s1, s5, s1
	or	s5, a4, a5
	or	a5, s7, s10
	or	s7, s9, s8
	or	a4, t5, s6
	or	t5, s3, s4
	or	a3, t4, t6
	and	s1, s1, s0
	and	a5, a5, s0
	and	a4, a4, s0
	and	a3, a3, s0
	or	s1, s1, s11
	or	a5, a5, s5
	or	a4, a4, s7
	or	a3, a3, t5
	slli	s1, s1, 32
	slli	a5, a5, 32
	slli	a4, a4, 32
	slli	a3, a3, 32
	srli	a5, a5, 32
	or	s0, a5, s1
	srli	a3, a3, 32
	not	a5, s0
	or	s1, a3, a4
	bne	t2, a5, .Lnoise_BB4_6
	not	a3, s1
	sltu	a4, a3, s2
	j	.Lnoise_BB4_7
.Lnoise_BB4_10:
	tail	noise_noise_poly_Poly1305_take_eights
.Lnoise_BB4_11:
	.cfi_restore_state
	li	s0, 0
.Lnoise_BB4_12:
	srli	a3, s2, 56
	sd	a3, 16(sp)
	srli	t0, s2, 48
	srli	a4, s2, 40
	srli	s9, s2, 32
	srli	a3, s2, 24
	sd	a3, 8(sp)
	srli	t5, s2, 16
	srli	s8, s2, 8
	srli	t3, t2, 56
	srli	t4, t2, 48
	srli	s5, t2, 40
	srli	a5, t2, 32
	srli	s3, t2, 24
	srli	s4, t2, 16
	srli	ra, t2, 8
	srli	s6, t1, 56
	srli	s7, t1, 48
	srli	t6, t1, 40
	srli	s1, t1, 32
	srli	s10, t1, 24
	srli	s11, t1, 16
	srli	a3, t1, 8
	srli	a7, s0, 56
	srli	a6, s0, 48
	sb	s9, 4(a0)
	sb	a4, 5(a0)
	sb	t0, 6(a0)
	ld	a4, 16(sp)
	sb	a4, 7(a0)
	srli	t0, s0, 40
	sb	s2, 0(a0)
	sb	s8, 1(a0)
	sb	t5, 2(a0)
	ld	a4, 8(sp)
	sb	a4, 3(a0)
	srli	t5, s0, 32
	sb	a5, 12(a0)
	sb	s5, 13(a0)
	sb	t4, 14(a0)
	sb	t3, 15(a0)
	srli	t3, s0, 24
	sb	t2, 8(a0)
	sb	ra, 9(a0)
	sb	s4, 10(a0)
	sb	s3, 11(a0)
	srli	t2, s0, 16
	sb	s1, 20(a0)
	sb	t6, 21(a0)
	sb	s7, 22(a0)
	sb	s6, 23(a0)
	srli	a4, s0, 8
	sb	t1, 16(a0)
	sb	a3, 17(a0)
	sb	s11, 18(a0)
	sb	s10, 19(a0)
	ld	s1, 80(a0)
	sb	t5, 28(a0)
	sb	t0, 29(a0)
	sb	a6, 30(a0)
	sb	a7, 31(a0)
	add	a3, a0, s1
	addi	a3, a3, 64
	sub	a5, a3, a1
	sb	s0, 24(a0)
	sb	a4, 25(a0)
	sb	t2, 26(a0)
	sb	t3, 27(a0)
	bgeu	a5, a2, .Lnoise_BB4_15
	add	a4, a1, a2
.Lnoise_BB4_14:
	lbu	a5, 0(a1)
	addi	a1, a1, 1
	sb	a5, 0(a3)
	addi	a3, a3, 1
	bne	a1, a4, .Lnoise_BB4_14
	j	.Lnoise_BB4_16
.Lnoise_BB4_15:
	mv	s2, a0
	mv	a0, a3
	mv	s0, a2
	call	memmove
	mv	a0, s2
	mv	a2, s0
.Lnoise_BB4_16:
	add	a2, a2, s1
	sd	a2, 80(a0)
	ld	ra, 120(sp)
	ld	s0, 112(sp)
	ld	s1, 104(sp)
	ld	s2, 96(sp)
	ld	s3, 88(sp)
	ld	s4, 80(sp)
	ld	s5, 72(sp)
	ld	s6, 64(sp)
	ld	s7, 56(sp)
	ld	s8, 48(sp)
	ld	s9, 40(sp)
	ld	s10, 32(sp)
	ld	s11, 24(sp)
	.cfi_restore ra
	.cfi_restore s0
	.cfi_restore s1
	.cfi_restore s2
	.cfi_restore s3
	.cfi_restore s4
	.cfi_restore s5
	.cfi_restore s6
	.cfi_restore s7
	.cfi_restore s8
	.cfi_restore s9
	.cfi_restore s10
	.cfi_restore s11
	addi	sp, sp, 128
	.cfi_def_cfa_offset 0
	ret
.Lnoise_func_end4:
	.size	noise_noise_poly_Poly1305_take_aligned, .Lnoise_func_end4-noise_noise_poly_Poly1305_take_aligned
	.cfi_endproc

	.section	".text.noise_poly::Poly1305::take_fours","ax",@progbits
	.p2align	1
	.type	noise_noise_poly_Poly1305_take_fours,@function
noise_noise_poly_Poly1305_take_fours:
	.cfi_startproc
	addi	sp, sp, -896
	.cfi_def_cfa_offset 896
	sd	ra, 888(sp)
	sd	s0, 880(sp)
	sd	s1, 872(sp)
	sd	s2, 864(sp)
	sd	s3, 856(sp)
	sd	s4, 848(sp)
	sd	s5, 840(sp)
	sd	s6, 832(sp)
	sd	s7, 824(sp)
	sd	s8, 816(sp)
	sd	s9, 808(sp)
	sd	s10, 800(sp)
	sd	s11, 792(sp)
	.cfi_offset ra, -8
	.cfi_offset s0, -16
	.cfi_offset s1, -24
	.cfi_offset s2, -32
	.cfi_offset s3, -40
	.cfi_offset s4, -48
	.cfi_offset s5, -56
	.cfi_offset s6, -64
	.cfi_offset s7, -72
	.cfi_offset s8, -80
	.cfi_offset s9, -88
	.cfi_offset s10, -96
	.cfi_offset s11, -104
	sd	a2, 632(sp)
	ld	a3, 40(a0)
	ld	t0, 32(a0)
	lbu	a6, 0(a1)
	lbu	t1, 1(a1)
	lbu	t2, 2(a1)
	lbu	t3, 3(a1)
	lbu	s5, 4(a1)
	lbu	a5, 5(a1)
	lbu	a7, 6(a1)
	lbu	t4, 7(a1)
	lbu	t6, 8(a1)
	lbu	t5, 9(a1)
	lbu	s8, 10(a1)
	lbu	s6, 11(a1)
	lbu	s9, 12(a1)
	lbu	a2, 13(a1)
	lbu	s3, 14(a1)
	lbu	s2, 15(a1)
	lbu	s4, 16(a1)
	lbu	s7, 17(a1)
	lbu	s10, 18(a1)
	lbu	s11, 19(a1)
	mv	ra, a1
	sd	a3, 96(sp)
	slli	s0, a3, 38
	srli	s1, t0, 26
	slli	a3, a3, 12
	or	s0, s0, s1
	sd	s0, 608(sp)
	srli	s0, t0, 52
	slli	t1, t1, 8
	slli	s1, t2, 16
	slli	a4, t3, 24
	slli	a5, a5, 8
	or	a3, a3, s0
	sd	a3, 616(sp)
	or	t2, a6, t1
	or	t3, a4, s1
	or	a1, s5, a5
	sd	a1, 600(sp)
	mv	a1, ra
	lbu	a3, 20(ra)
	lbu	a4, 21(ra)
	lbu	ra, 22(ra)
	lbu	s0, 23(a1)
	sd	a1, 624(sp)
	slli	a7, a7, 16
	slli	t4, t4, 24
	slli	s1, t5, 8
	slli	s8, s8, 16
	slli	s6, s6, 24
	slli	a2, a2, 8
	or	t5, t4, a7
	or	t6, t6, s1
	or	a6, s6, s8
	or	t1, s9, a2
	lbu	s8, 24(a1)
	lbu	a2, 25(a1)
	lbu	a5, 26(a1)
	lbu	s1, 27(a1)
	slli	s3, s3, 16
	slli	s2, s2, 24
	slli	s7, s7, 8
	slli	s10, s10, 16
	slli	s11, s11, 24
	slli	a4, a4, 8
	or	s6, s2, s3
	or	s2, s4, s7
	or	s5, s11, s10
	or	s4, a3, a4
	lbu	s3, 28(a1)
	lbu	s11, 29(a1)
	lbu	a4, 30(a1)
	lbu	a3, 31(a1)
	slli	ra, ra, 16
	slli	s0, s0, 24
	slli	a2, a2, 8
	slli	a5, a5, 16
	slli	s1, s1, 24
	or	s7, s0, ra
	or	s10, s8, a2
	or	a7, s1, a5
	ld	ra, 0(a0)
	ld	s9, 8(a0)
	sd	a0, 88(sp)
	lbu	a0, 16(a0)
	slli	s11, s11, 8
	slli	a4, a4, 16
	slli	a3, a3, 24
	or	a1, s3, s11
	slli	a5, s9, 12
	or	a2, a3, a4
	srli	a4, ra, 52
	slli	a0, a0, 24
	or	a4, a4, a5
	sd	a4, 592(sp)
	srli	a4, s9, 40
	or	s11, a0, a4
	lui	a4, 16
	addi	s1, a4, -1
	and	a4, t2, s1
	or	t2, a4, t3
	lui	a4, 16384
	addi	s8, a4, -1
	ld	a4, 600(sp)
	and	a4, a4, s1
	or	t4, a4, t5
	and	a4, t6, s1
	or	a0, a4, a6
	sd	a0, 600(sp)
	sd	t0, 8(sp)
	and	a3, t0, s8
	and	a4, t1, s1
	or	s6, a4, s6
	ld	a4, 96(sp)
	srli	t0, a4, 40
	and	a5, s2, s1
	or	s3, a5, s5
	slli	a0, t0, 2
	and	a5, s4, s1
	or	s4, a5, s7
	and	s0, s10, s1
	or	t5, s0, a7
	mul	s0, a3, a3
	ld	a5, 608(sp)
	and	a6, a5, s8
	add	t1, a0, t0
	sd	s1, 120(sp)
	and	s1, s1, a1
	or	s2, s1, a2
	mul	a0, a6, t1
	add	a7, a0, s0
	slli	a2, a3, 1
	ld	a0, 616(sp)
	and	a0, a0, s8
	mul	s0, a2, a6
	mul	s1, a0, t1
	add	t3, s0, s1
	mul	a2, a2, a0
	mul	s1, a6, a6
	add	a2, a2, s1
	srli	s1, a4, 14
	and	s0, s1, s8
	mul	s1, s0, a3
	mul	a4, a6, a0
	add	a4, a4, s1
	sd	a3, 80(sp)
	mul	s1, a3, t0
	mul	a5, a6, s0
	add	a5, a5, s1
	slli	s1, s0, 2
	add	a1, s1, s0
	mul	s1, a1, a0
	add	s7, a7, s1
	mul	s1, a1, s0
	add	s5, t3, s1
	mul	s1, s0, t1
	add	a3, a2, s1
	slli	t6, t6, 12
	srliw	s1, t4, 20
	or	t3, t6, s1
	slli	s10, s10, 12
	srliw	s1, s4, 20
	or	a2, s10, s1
	sd	a2, 616(sp)
	lui	a7, 4096
	add	a7, a7, s11
	srliw	s1, s6, 8
	add	a7, a7, s1
	slli	s1, a0, 2
	add	a2, s1, a0
	sd	s0, 48(sp)
	mul	s1, a2, s0
	add	s7, s7, s1
	sd	a2, 32(sp)
	mul	s1, a2, t0
	add	a2, s5, s1
	sd	a1, 104(sp)
	mul	s0, a1, t0
	add	s5, a3, s0
	slli	a4, a4, 1
	sd	t1, 72(sp)
	mul	s0, t1, t0
	add	s10, a4, s0
	slli	a5, a5, 1
	sd	a0, 56(sp)
	mul	s0, a0, a0
	add	a5, a5, s0
	slli	t2, t2, 32
	slli	t1, t4, 32
	srli	s0, t2, 32
	or	s0, s0, t1
	ld	t1, 600(sp)
	slli	t1, t1, 32
	slli	s6, s6, 32
	srli	a3, t1, 32
	or	a3, a3, s6
	slli	t4, s3, 32
	slli	s4, s4, 32
	srli	s1, t4, 32
	or	t6, s1, s4
	slli	t5, t5, 32
	srli	s1, t5, 32
	slli	a0, s2, 32
	or	s11, s1, a0
	slli	a0, a6, 2
	sd	a6, 64(sp)
	add	a0, a0, a6
	sd	t0, 40(sp)
	sd	a0, 24(sp)
	mul	a0, a0, t0
	add	a4, s7, a0
	ld	a0, 592(sp)
	and	t2, a0, s8
	and	a0, t3, s8
	add	s7, a0, t2
	srli	a0, s10, 26
	add	t3, a0, a5
	and	a5, ra, s8
	and	a0, s0, s8
	add	a5, a5, a0
	srli	a0, a4, 26
	add	a2, a2, a0
	slli	ra, ra, 12
	srli	t1, ra, 38
	slli	s0, s0, 12
	srli	s0, s0, 38
	add	t2, s0, t1
	slli	s9, s9, 24
	srli	a0, s9, 38
	slli	a3, a3, 24
	srli	a3, a3, 38
	add	s6, a3, a0
	srli	a3, a2, 26
	add	s5, s5, a3
	and	s0, a4, s8
	srli	s1, t3, 26
	add	s0, s0, s1
	slli	s1, s1, 2
	add	s1, s1, s0
	and	s0, s10, s8
	srli	a3, s5, 26
	add	a4, a3, s0
	and	a3, a2, s8
	srli	s0, s1, 26
	add	a1, a3, s0
	and	s0, t3, s8
	srli	a3, a4, 26
	add	t1, s0, a3
	and	a6, s5, s8
	and	a0, s1, s8
	mul	a3, a6, a0
	slli	a3, a3, 1
	mul	s1, a1, a1
	add	t3, s1, a3
	and	a2, a4, s8
	slli	a4, a6, 2
	add	a3, a4, a6
	mul	a4, a0, a0
	mul	s1, a2, a3
	add	a4, a4, s1
	mul	s1, a6, a1
	mul	s0, a2, a0
	add	t4, s1, s0
	slli	s1, a1, 2
	addw	t0, s1, a1
	mul	s1, t1, t0
	add	a4, a4, s1
	mul	s1, a0, a1
	slli	s1, s1, 1
	sd	a3, 160(sp)
	mul	a3, t1, a3
	add	a3, a3, s1
	mul	s1, a2, a1
	sd	a0, 184(sp)
	mul	s0, a0, t1
	add	t5, s0, s1
	slli	s1, a2, 2
	add	a0, s1, a2
	mul	s1, a6, a0
	add	a4, a4, s1
	mul	s1, a2, a0
	add	s0, s1, a3
	sd	a0, 144(sp)
	mul	s1, t1, a0
	add	t3, t3, s1
	slli	s1, t1, 2
	add	a0, s1, t1
	sd	a1, 176(sp)
	mul	s1, a0, a1
	add	a3, a4, s1
	slli	t4, t4, 1
	sd	t1, 128(sp)
	mul	s1, a0, t1
	add	t4, t4, s1
	mul	s1, a6, a0
	add	s3, s0, s1
	slli	s0, t5, 1
	sd	a6, 168(sp)
	mul	s1, a6, a6
	add	s0, s0, s1
	sd	a2, 152(sp)
	sd	a0, 136(sp)
	mul	s1, a2, a0
	add	t3, t3, s1
	srli	a4, a3, 26
	add	s3, s3, a4
	srli	s1, t4, 26
	add	s1, s1, s0
	srli	a4, s3, 26
	add	t3, t3, a4
	and	a3, a3, s8
	srli	s0, s1, 26
	add	a3, a3, s0
	slli	s0, s0, 2
	add	t5, s0, a3
	and	s0, t4, s8
	srli	a4, t3, 26
	add	t4, a4, s0
	and	s0, s3, s8
	srli	a3, t5, 26
	add	s5, s0, a3
	and	s1, s1, s8
	srli	a4, t4, 26
	add	a4, a4, s1
	slli	s0, s5, 2
	add	s4, s0, s5
	sw	a4, 664(sp)
	sw	a4, 700(sp)
	sw	a4, 736(sp)
	sw	a4, 772(sp)
	slli	s1, a4, 2
	add	s3, s1, a4
	and	s1, t5, s8
	sw	s1, 648(sp)
	sw	s1, 684(sp)
	sw	s1, 720(sp)
	sw	s1, 756(sp)
	and	s0, t3, s8
	and	a3, t4, s8
	slli	s1, s0, 2
	add	s1, s1, s0
	slli	a4, a3, 2
	add	a4, a4, a3
	sw	s1, 744(sp)
	sw	s1, 672(sp)
	sw	s1, 780(sp)
	sw	s1, 708(sp)
	sw	a3, 696(sp)
	sw	a3, 732(sp)
	sw	a3, 768(sp)
	sw	a3, 660(sp)
	sw	s5, 652(sp)
	sw	s5, 760(sp)
	sw	s5, 688(sp)
	sw	s5, 724(sp)
	sw	a4, 712(sp)
	sw	a4, 748(sp)
	sw	a4, 784(sp)
	sw	a4, 676(sp)
	sw	s4, 668(sp)
	sw	s4, 704(sp)
	sw	s4, 776(sp)
	sw	s4, 740(sp)
	sw	s0, 728(sp)
	sw	s0, 656(sp)
	sw	s0, 764(sp)
	sw	s0, 692(sp)
	sw	s3, 680(sp)
	sw	s3, 716(sp)
	sw	s3, 752(sp)
	sw	s3, 788(sp)
	ld	a0, 624(sp)
	addi	a1, a0, 32
	srliw	a3, s2, 8
	lui	a0, 4096
	or	s4, a3, a0
	ld	a0, 616(sp)
	and	a6, a0, s8
	sd	s8, 640(sp)
	and	a4, t6, s8
	slli	t6, t6, 12
	slli	a3, s11, 24
	srli	s3, t6, 38
	srli	s1, a3, 38
	sd	t0, 16(sp)
	slli	a0, t0, 33
	srli	a0, a0, 33
	sd	a0, 112(sp)
	ld	a0, 632(sp)
	addi	a0, a0, 32
	sd	a0, 632(sp)
.Lnoise_BB5_1:
	mv	t4, a1
	ld	a0, 632(sp)
	sd	a0, 624(sp)
	addi	t1, a0, -64
	addi	s10, sp, 648
	srli	t0, a5, 26
	srli	s9, a4, 26
	srli	t3, s6, 26
	srli	a2, s1, 26
	ld	a1, 640(sp)
	and	t5, a5, a1
	and	s2, a4, a1
	and	t6, s6, a1
	and	a1, a1, s1
	lbu	s11, 0(t4)
	lbu	s0, 1(t4)
	lbu	s1, 2(t4)
	lbu	a0, 3(t4)
	lbu	ra, 4(t4)
	lbu	a3, 5(t4)
	lbu	a5, 6(t4)
	lbu	a4, 7(t4)
	lbu	s8, 10(t4)
	lbu	s5, 11(t4)
	add	s9, s9, s3
	sd	t1, 632(sp)
	slli	s3, t1, 56
	add	s6, t0, t2
	add	a2, a2, s4
	sd	a2, 584(sp)
	add	t3, t3, a7
	sd	t3, 592(sp)
	srli	a7, s3, 62
	srli	t0, s6, 26
	srli	t1, s9, 26
	srli	t3, t3, 26
	add	a6, a6, t1
	sd	a6, 600(sp)
	srli	t1, a2, 26
	add	s7, s7, t0
	sd	s7, 608(sp)
	slli	t0, a7, 2
	slli	a7, a7, 5
	add	s2, s2, t1
	add	t5, t5, t3
	slli	t1, t1, 2
	slli	t3, t3, 2
	or	a7, a7, t0
	add	t3, t3, t5
	sd	t3, 408(sp)
	add	t5, s2, t1
	srli	t0, s7, 26
	srli	t2, a6, 26
	add	a7, a7, s10
	sd	a7, 616(sp)
	add	s3, t2, a1
	add	t0, t0, t6
	sd	t0, 576(sp)
	lbu	a6, 12(t4)
	lbu	a7, 13(t4)
	lbu	t0, 14(t4)
	lbu	t2, 15(t4)
	slli	s0, s0, 8
	slli	s1, s1, 16
	slli	a0, a0, 24
	slli	a3, a3, 8
	slli	a5, a5, 16
	slli	a4, a4, 24
	or	a1, s11, s0
	sd	a1, 568(sp)
	or	a0, a0, s1
	sd	a0, 560(sp)
	or	a0, ra, a3
	sd	a0, 552(sp)
	or	a4, a4, a5
	sd	a4, 544(sp)
	lbu	a0, 16(t4)
	lbu	a3, 17(t4)
	lbu	a4, 18(t4)
	lbu	a5, 19(t4)
	slli	s8, s8, 16
	slli	s5, s5, 24
	slli	a7, a7, 8
	slli	t0, t0, 16
	slli	t2, t2, 24
	slli	a3, a3, 8
	or	s11, s5, s8
	or	a1, a6, a7
	sd	a1, 536(sp)
	or	a1, t2, t0
	sd	a1, 528(sp)
	or	a0, a0, a3
	sd	a0, 520(sp)
	lbu	a0, 20(t4)
	lbu	a3, 21(t4)
	lbu	s1, 22(t4)
	lbu	s0, 23(t4)
	slli	a4, a4, 16
	slli	a5, a5, 24
	slli	a3, a3, 8
	or	a4, a4, a5
	sd	a4, 512(sp)
	or	a0, a0, a3
	sd	a0, 504(sp)
	lbu	a0, 26(t4)
	lbu	a3, 27(t4)
	slli	s1, s1, 16
	slli	s0, s0, 24
	slli	a0, a0, 16
	slli	a3, a3, 24
	or	s0, s0, s1
	sd	s0, 496(sp)
	or	t1, a3, a0
	lbu	a0, 29(t4)
	lbu	a3, 28(t4)
	lbu	a4, 30(t4)
	lbu	a5, 31(t4)
	slli	a0, a0, 8
	or	a0, a0, a3
	sd	a0, 488(sp)
	slli	a4, a4, 16
	slli	a5, a5, 24
	or	a4, a4, a5
	sd	a4, 480(sp)
	lbu	a0, 33(t4)
	lbu	a3, 32(t4)
	lbu	a4, 34(t4)
	lbu	a5, 35(t4)
	slli	a0, a0, 8
	or	a0, a0, a3
	sd	a0, 464(sp)
	slli	a4, a4, 16
	slli	a5, a5, 24
	or	a4, a4, a5
	sd	a4, 456(sp)
	lbu	a0, 37(t4)
	lbu	a3, 36(t4)
	lbu	a4, 38(t4)
	lbu	a5, 39(t4)
	slli	a0, a0, 8
	or	a0, a0, a3
	sd	a0, 448(sp)
	slli	a4, a4, 16
	lbu	a0, 42(t4)
	lbu	a3, 43(t4)
	slli	a5, a5, 24
	or	a4, a4, a5
	sd	a4, 440(sp)
	slli	a0, a0, 16
	slli	a3, a3, 24
	or	t2, a3, a0
	lbu	a0, 45(t4)
	lbu	a3, 44(t4)
	lbu	a5, 46(t4)
	lbu	s1, 47(t4)
	slli	a0, a0, 8
	or	a0, a0, a3
	sd	a0, 432(sp)
	slli	a5, a5, 16
	slli	s1, s1, 24
	or	a5, a5, s1
	sd	a5, 424(sp)
	lbu	a0, 49(t4)
	lbu	a3, 48(t4)
	lbu	a5, 50(t4)
	lbu	s1, 51(t4)
	slli	a0, a0, 8
	or	a0, a0, a3
	sd	a0, 400(sp)
	slli	a5, a5, 16
	slli	s1, s1, 24
	or	a5, a5, s1
	sd	a5, 392(sp)
	lbu	a0, 53(t4)
	lbu	a3, 52(t4)
	lbu	a5, 54(t4)
	lbu	s0, 55(t4)
	slli	a0, a0, 8
	or	a0, a0, a3
	sd	a0, 376(sp)
	slli	a5, a5, 16
	lbu	a0, 58(t4)
	lbu	a3, 59(t4)
	slli	s0, s0, 24
	or	a5, a5, s0
	sd	a5, 352(sp)
	slli	a0, a0, 16
	slli	a3, a3, 24
	or	a6, a3, a0
	lbu	a3, 61(t4)
	lbu	a4, 60(t4)
	lbu	a5, 62(t4)
	lbu	s0, 63(t4)
	slli	a3, a3, 8
	or	ra, a4, a3
	slli	a5, a5, 16
	slli	s0, s0, 24
	or	s2, s0, a5
	ld	a7, 640(sp)
	and	s6, s6, a7
	srli	a3, t3, 26
	add	s6, s6, a3
	and	a0, s9, a7
	mv	t3, a7
	lbu	a3, 9(t4)
	lbu	s9, 8(t4)
	mv	s10, t5
	srli	s0, t5, 26
	add	s0, s0, a0
	slli	a0, a3, 8
	or	s4, s9, a0
	lbu	s9, 25(t4)
	lbu	a2, 24(t4)
	ld	a1, 120(sp)
	and	a0, a0, a1
	or	a0, a0, s11
	slli	s9, s9, 8
	or	t0, a2, s9
	lbu	a2, 41(t4)
	lbu	s11, 40(t4)
	and	s1, s9, a1
	or	s1, s1, t1
	slli	a2, a2, 8
	or	a3, s11, a2
	sd	a3, 344(sp)
	lbu	s9, 57(t4)
	lbu	s11, 56(t4)
	and	a2, a2, a1
	or	t5, a2, t2
	slli	s9, s9, 8
	or	s11, s11, s9
	and	a2, s9, a1
	or	t6, a2, a6
	ld	a2, 584(sp)
	and	s9, a2, a7
	mv	s5, s3
	srli	a2, s3, 26
	add	s9, s9, a2
	ld	a2, 592(sp)
	and	s7, a2, a7
	ld	s3, 576(sp)
	srli	a2, s3, 26
	add	s7, s7, a2
	ld	a5, 568(sp)
	and	a5, a5, a1
	ld	a2, 560(sp)
	or	a2, a2, a5
	sd	a2, 416(sp)
	ld	a5, 552(sp)
	and	a5, a5, a1
	ld	a2, 544(sp)
	or	t1, a5, a2
	sd	t1, 232(sp)
	ld	a5, 536(sp)
	and	a5, a5, a1
	ld	a2, 528(sp)
	or	a3, a5, a2
	sd	a3, 472(sp)
	ld	a5, 520(sp)
	and	a5, a5, a1
	ld	a2, 512(sp)
	or	a2, a2, a5
	sd	a2, 384(sp)
	ld	a5, 504(sp)
	and	a5, a5, a1
	ld	a2, 496(sp)
	or	a7, a5, a2
	sd	a7, 288(sp)
	ld	a5, 488(sp)
	and	a5, a5, a1
	ld	a2, 480(sp)
	or	a2, a2, a5
	sd	a2, 520(sp)
	ld	a5, 464(sp)
	and	a5, a5, a1
	ld	a4, 456(sp)
	or	a4, a4, a5
	sd	a4, 368(sp)
	ld	a5, 448(sp)
	and	a5, a5, a1
	ld	a4, 440(sp)
	or	s8, a5, a4
	ld	a5, 432(sp)
	and	a5, a5, a1
	ld	a4, 424(sp)
	or	a6, a5, a4
	sd	a6, 584(sp)
	ld	a5, 400(sp)
	and	a5, a5, a1
	ld	a4, 392(sp)
	or	a4, a4, a5
	sd	a4, 360(sp)
	ld	a5, 376(sp)
	and	a5, a5, a1
	ld	a4, 352(sp)
	or	t2, a5, a4
	sd	t2, 208(sp)
	and	a5, ra, a1
	or	a1, a5, s2
	sd	a1, 592(sp)
	slli	a0, a0, 32
	srli	a0, a0, 32
	slli	a5, a3, 32
	or	a0, a0, a5
	sd	a0, 560(sp)
	slli	s1, s1, 32
	srli	s1, s1, 32
	slli	a0, a2, 32
	or	a0, a0, s1
	sd	a0, 568(sp)
	slli	a4, t0, 12
	srliw	a0, a7, 20
	or	a0, a0, a4
	sd	a0, 544(sp)
	slli	t0, s4, 12
	srliw	a0, t1, 20
	or	a0, t0, a0
	sd	a0, 528(sp)
	slli	a3, t5, 32
	srli	a3, a3, 32
	slli	a0, a6, 32
	or	a0, a0, a3
	sd	a0, 504(sp)
	slli	a6, t6, 32
	srli	a0, a6, 32
	slli	a3, a1, 32
	or	a0, a0, a3
	sd	a0, 512(sp)
	ld	t5, 344(sp)
	slli	t5, t5, 12
	srliw	a0, s8, 20
	or	a0, t5, a0
	sd	a0, 552(sp)
	slli	s2, s11, 12
	srliw	a0, t2, 20
	or	a0, s2, a0
	sd	a0, 536(sp)
	ld	a1, 600(sp)
	and	s4, a1, t3
	ld	a1, 608(sp)
	and	t6, a1, t3
	and	t5, s10, t3
	ld	a1, 408(sp)
	and	s10, a1, t3
	ld	a1, 616(sp)
	lwu	a0, 0(a1)
	lwu	a2, 4(a1)
	lwu	a4, 8(a1)
	lwu	ra, 12(a1)
	lwu	t0, 16(a1)
	lwu	t2, 20(a1)
	lwu	s1, 24(a1)
	lwu	a3, 28(a1)
	lwu	a1, 32(a1)
	and	a6, s3, t3
	and	a7, s5, t3
	mul	a5, t2, s7
	sd	a5, 192(sp)
	mul	t2, t2, s9
	mul	t3, s1, a7
	mul	a5, s1, a6
	sd	a5, 200(sp)
	mul	a5, s1, s9
	sd	a5, 256(sp)
	mul	a5, s1, s7
	sd	a5, 264(sp)
	mul	t1, a3, t6
	mul	s2, a3, s4
	mul	a5, a3, a6
	sd	a5, 248(sp)
	mul	a5, a3, a7
	sd	a5, 224(sp)
	mul	a5, a3, s7
	sd	a5, 328(sp)
	mul	a3, a3, s9
	sd	a3, 312(sp)
	mul	a5, a0, s10
	mul	a3, a2, s10
	sd	a3, 216(sp)
	mul	a3, a4, s10
	sd	a3, 304(sp)
	mul	a3, ra, s10
	sd	a3, 400(sp)
	mul	a3, t0, s10
	sd	a3, 616(sp)
	mul	a3, t0, t5
	sd	a3, 608(sp)
	mul	a3, a0, t5
	mul	s10, a2, t5
	mul	s1, a4, t5
	sd	s1, 280(sp)
	mul	s1, ra, t5
	sd	s1, 352(sp)
	mul	s1, a1, s0
	sd	s1, 440(sp)
	mul	t0, a0, s0
	mul	s1, a2, s0
	sd	s1, 240(sp)
	mul	s1, a4, s0
	sd	s1, 336(sp)
	mul	s1, ra, s0
	sd	s1, 424(sp)
	mul	s1, ra, s6
	sd	s1, 408(sp)
	mul	s1, a1, s6
	sd	s1, 432(sp)
	mul	t5, a0, s6
	mul	ra, a2, s6
	mul	s0, a4, s6
	sd	s0, 320(sp)
	mul	s0, a1, t6
	sd	s0, 480(sp)
	mul	s0, a0, t6
	mul	s1, a2, t6
	sd	s1, 296(sp)
	mul	s1, a4, t6
	sd	s1, 376(sp)
	mul	a4, a4, s4
	sd	a4, 392(sp)
	mul	a4, a1, s4
	sd	a4, 448(sp)
	mul	t6, a0, s4
	mul	a4, a2, s4
	sd	a4, 272(sp)
	mul	a4, a1, a6
	sd	a4, 464(sp)
	mul	s6, a0, a6
	mul	a4, a2, a6
	sd	a4, 344(sp)
	mul	a6, a2, a7
	mul	a2, a1, a7
	sd	a2, 456(sp)
	mul	s4, a0, a7
	mul	a2, a1, s9
	sd	a2, 496(sp)
	mul	a1, a1, s7
	sd	a1, 488(sp)
	mul	a1, a0, s9
	mul	s9, a0, s7
	ld	a0, 416(sp)
	slli	a0, a0, 32
	ld	s3, 232(sp)
	slli	s3, s3, 32
	srli	a0, a0, 32
	or	a0, a0, s3
	sd	a0, 416(sp)
	ld	a0, 384(sp)
	slli	a0, a0, 32
	ld	s11, 288(sp)
	slli	s11, s11, 32
	srli	a0, a0, 32
	or	s11, a0, s11
	sd	s11, 384(sp)
	ld	a0, 368(sp)
	slli	a0, a0, 32
	slli	s8, s8, 32
	srli	a0, a0, 32
	or	a0, a0, s8
	sd	a0, 600(sp)
	ld	a0, 360(sp)
	slli	a0, a0, 32
	ld	s5, 208(sp)
	slli	s5, s5, 32
	srli	a0, a0, 32
	or	a0, a0, s5
	sd	a0, 576(sp)
	add	t2, t2, a3
	ld	a7, 192(sp)
	add	a7, a7, a5
	add	s2, s2, t3
	ld	a0, 200(sp)
	add	t1, t1, a0
	add	t0, t0, s10
	ld	a0, 216(sp)
	add	t5, t5, a0
	ld	s3, 256(sp)
	ld	a0, 224(sp)
	add	s3, s3, a0
	ld	s1, 264(sp)
	ld	a0, 248(sp)
	add	s1, s1, a0
	ld	a0, 240(sp)
	add	t6, t6, a0
	add	s0, s0, ra
	ld	a3, 312(sp)
	ld	a0, 280(sp)
	add	a3, a3, a0
	ld	a4, 328(sp)
	ld	a0, 304(sp)
	add	a4, a4, a0
	ld	a0, 272(sp)
	add	s4, s4, a0
	ld	a0, 296(sp)
	add	s6, s6, a0
	ld	s7, 352(sp)
	ld	a0, 336(sp)
	add	s7, s7, a0
	ld	s10, 400(sp)
	ld	a0, 320(sp)
	add	s10, s10, a0
	ld	a0, 344(sp)
	add	s9, s9, a0
	add	a1, a1, a6
	ld	a0, 408(sp)
	ld	a2, 376(sp)
	add	a0, a0, a2
	ld	a2, 424(sp)
	ld	a5, 392(sp)
	add	a2, a2, a5
	add	t2, t2, s2
	add	a7, a7, t1
	add	t3, t0, s3
	add	t5, t5, s1
	add	t6, t6, a3
	add	s2, s0, a4
	add	s4, s4, s7
	sd	s4, 424(sp)
	add	a5, s6, s10
	ld	a3, 472(sp)
	srliw	a3, a3, 8
	lui	a4, 4096
	or	s6, a3, a4
	ld	a3, 504(sp)
	slli	a3, a3, 24
	srli	a3, a3, 38
	ld	a6, 136(sp)
	mul	s5, s6, a6
	add	a3, a3, s5
	sd	a3, 504(sp)
	ld	a3, 520(sp)
	srliw	a3, a3, 8
	or	s7, a3, a4
	ld	a3, 512(sp)
	slli	a3, a3, 24
	srli	a3, a3, 38
	mul	t0, s7, a6
	add	a3, a3, t0
	sd	a3, 520(sp)
	add	a0, a0, s9
	sd	a0, 392(sp)
	add	s5, a1, a2
	ld	a0, 432(sp)
	add	a0, a0, a7
	sd	a0, 512(sp)
	ld	a0, 440(sp)
	add	a0, a0, t2
	sd	a0, 472(sp)
	ld	a0, 112(sp)
	mul	s3, s6, a0
	ld	a1, 640(sp)
	ld	s10, 416(sp)
	and	a3, s10, a1
	ld	t1, 184(sp)
	mul	a2, a3, t1
	add	a2, a2, s3
	sd	a2, 440(sp)
	mul	s9, s7, a0
	and	s1, s11, a1
	mul	a2, s1, t1
	add	a2, a2, s9
	sd	a2, 408(sp)
	ld	a0, 528(sp)
	and	s3, a0, a1
	ld	s0, 560(sp)
	slli	s0, s0, 24
	srli	s0, s0, 38
	ld	a2, 144(sp)
	mul	s4, s3, a2
	ld	t0, 160(sp)
	mul	a0, s0, t0
	add	a0, a0, s4
	sd	a0, 432(sp)
	ld	a0, 544(sp)
	and	s4, a0, a1
	mv	s9, a1
	ld	a1, 568(sp)
	slli	a1, a1, 24
	srli	a1, a1, 38
	mul	a7, s4, a2
	mul	a4, a1, t0
	add	ra, a4, a7
	ld	a0, 480(sp)
	add	a0, a0, t5
	sd	a0, 400(sp)
	ld	a0, 448(sp)
	add	a0, a0, t3
	sd	a0, 448(sp)
	mul	t5, s4, a6
	mul	a4, a1, a2
	add	t5, t5, a4
	mul	t2, s3, a6
	mul	a4, s0, a2
	add	a4, a4, t2
	sd	a4, 480(sp)
	ld	a0, 464(sp)
	add	a0, a0, s2
	sd	a0, 544(sp)
	ld	a0, 456(sp)
	add	a0, a0, t6
	sd	a0, 528(sp)
	mul	s8, s3, t1
	ld	t2, 168(sp)
	mul	a4, a3, t2
	add	a4, a4, s8
	sd	a4, 464(sp)
	mul	s11, s4, t1
	mul	a4, s1, t2
	add	s8, a4, s11
	ld	a0, 552(sp)
	and	s11, a0, s9
	mul	t3, s0, a6
	add	t3, t3, s11
	sd	t3, 568(sp)
	ld	a0, 536(sp)
	and	s11, a0, s9
	mul	a4, a1, a6
	add	a4, a4, s11
	sd	a4, 560(sp)
	ld	a0, 488(sp)
	add	a0, a0, a5
	sd	a0, 552(sp)
	ld	a0, 496(sp)
	ld	a4, 424(sp)
	add	a0, a0, a4
	sd	a0, 536(sp)
	ld	a7, 152(sp)
	mul	a4, a3, a7
	mul	a5, s0, t1
	add	a4, a4, a5
	sd	a4, 496(sp)
	mul	a5, s1, a7
	mul	s11, a1, t1
	add	s11, s11, a5
	ld	a0, 608(sp)
	add	a0, a0, s5
	sd	a0, 608(sp)
	ld	a0, 616(sp)
	ld	a4, 392(sp)
	add	a0, a0, a4
	sd	a0, 616(sp)
	mul	a5, s7, t1
	ld	a0, 128(sp)
	mul	s5, s1, a0
	add	a5, a5, s5
	sd	a5, 488(sp)
	mul	a5, s6, t1
	mul	t6, a3, a0
	add	t6, t6, a5
	ld	a0, 176(sp)
	mul	a1, a1, a0
	mul	a4, s4, t2
	add	a1, a1, a4
	sd	a1, 456(sp)
	mul	a4, s0, a0
	mul	s0, s3, t2
	add	a4, a4, s0
	sd	a4, 424(sp)
	ld	a1, 512(sp)
	ld	a4, 440(sp)
	add	a1, a1, a4
	sd	a1, 512(sp)
	ld	a1, 472(sp)
	ld	a4, 408(sp)
	add	a1, a1, a4
	sd	a1, 472(sp)
	ld	a1, 384(sp)
	slli	a1, a1, 12
	srli	a1, a1, 38
	mul	s2, a1, a6
	add	s2, s2, ra
	sd	s2, 440(sp)
	slli	a5, s10, 12
	srli	a5, a5, 38
	mul	s0, a5, a6
	ld	a4, 432(sp)
	add	a4, a4, s0
	sd	a4, 432(sp)
	mul	s1, s1, a0
	ld	s5, 448(sp)
	add	s1, s1, s5
	sd	s1, 448(sp)
	mul	a3, a3, a0
	ld	ra, 400(sp)
	add	ra, ra, a3
	mul	s0, s7, t0
	mul	a4, a1, t1
	add	a6, a4, s0
	mul	s0, s6, t0
	mul	s1, a5, t1
	add	s2, s1, s0
	ld	t3, 600(sp)
	slli	s1, t3, 12
	srli	s1, s1, 38
	ld	a3, 480(sp)
	add	a3, a3, s1
	sd	a3, 480(sp)
	ld	t1, 576(sp)
	slli	s1, t1, 12
	srli	s1, s1, 38
	add	s5, t5, s1
	ld	a3, 544(sp)
	ld	a4, 464(sp)
	add	a3, a3, a4
	ld	a4, 528(sp)
	add	s8, s8, a4
	mul	s6, s6, a2
	mul	t5, a5, a0
	add	t5, t5, s6
	mul	s6, s7, a2
	mul	s1, a1, a0
	add	s1, s1, s6
	ld	s6, 552(sp)
	ld	a2, 496(sp)
	add	s6, s6, a2
	ld	a2, 536(sp)
	add	s11, s11, a2
	mul	a2, s3, a0
	mul	a4, a5, t2
	add	a2, a2, a4
	mul	a0, s4, a0
	mul	a4, a1, t2
	add	a0, a0, a4
	ld	s10, 608(sp)
	ld	a4, 488(sp)
	add	s10, s10, a4
	ld	a4, 616(sp)
	add	t6, t6, a4
	mul	a4, a5, a7
	ld	a5, 424(sp)
	add	a4, a4, a5
	mul	a1, a1, a7
	ld	a5, 456(sp)
	add	a1, a1, a5
	ld	t0, 472(sp)
	ld	a5, 440(sp)
	add	t0, t0, a5
	ld	a5, 512(sp)
	ld	s0, 432(sp)
	add	a5, a5, s0
	ld	s0, 448(sp)
	add	a6, a6, s0
	add	s0, ra, s2
	add	a3, a3, t5
	add	s1, s1, s8
	add	a2, a2, s6
	add	a0, a0, s11
	add	a7, t6, a4
	add	a1, a1, s10
	and	a4, t3, s9
	add	a5, a5, a4
	and	a4, t1, s9
	add	a4, a4, t0
	ld	t2, 480(sp)
	add	t2, t2, s0
	add	s3, a6, s5
	ld	s7, 568(sp)
	add	s7, s7, a3
	ld	a6, 560(sp)
	add	a6, a6, s1
	ld	s6, 504(sp)
	add	s6, s6, a2
	ld	s1, 520(sp)
	add	s1, s1, a0
	ld	a0, 584(sp)
	srliw	a0, a0, 8
	lui	a3, 4096
	add	a0, a0, a3
	add	a7, a7, a0
	ld	a0, 624(sp)
	addi	a0, a0, -128
	ld	a2, 592(sp)
	srliw	a2, a2, 8
	add	a2, a2, a3
	add	s4, a1, a2
	li	a2, 63
	addi	a1, t4, 64
	bltu	a2, a0, .Lnoise_BB5_1
	srli	a0, a4, 26
	add	s3, s3, a0
	srli	a2, a5, 26
	add	t1, a2, t2
	srli	a3, s1, 26
	add	s4, s4, a3
	srli	s0, s6, 26
	add	t0, s0, a7
	srli	a0, s3, 26
	add	a6, a6, a0
	srli	a2, t1, 26
	add	s7, s7, a2
	lui	a3, 16384
	addi	a0, a3, -1
	and	a5, a5, a0
	srli	a3, t0, 26
	add	a5, a5, a3
	slli	a3, a3, 2
	add	a2, a5, a3
	and	a4, a4, a0
	srli	a3, s4, 26
	add	a4, a4, a3
	slli	a3, a3, 2
	add	a3, a3, a4
	and	s1, s1, a0
	srli	a4, a6, 26
	add	s0, a4, s1
	and	a4, s6, a0
	srli	a5, s7, 26
	add	a4, a4, a5
	and	a7, s3, a0
	srli	a5, a3, 26
	add	s5, a7, a5
	and	t3, t1, a0
	srli	a5, a2, 26
	add	a5, a5, t3
	sd	a5, 624(sp)
	and	t1, t0, a0
	srli	a5, a4, 26
	add	a5, a5, t1
	sd	a5, 616(sp)
	and	s1, s4, a0
	and	a5, a6, a0
	and	s2, s7, a0
	and	a3, a3, a0
	and	a2, a2, a0
	and	t6, a4, a0
	and	s7, s0, a0
	srli	s0, s0, 26
	add	s10, s1, s0
	ld	a0, 104(sp)
	mul	t0, a5, a0
	ld	s1, 80(sp)
	mul	a4, a3, s1
	add	a4, a4, t0
	sd	a4, 608(sp)
	ld	s8, 144(sp)
	mul	t2, s2, s8
	ld	s3, 184(sp)
	mul	a4, a2, s3
	add	a4, a4, t2
	sd	a4, 600(sp)
	ld	s9, 72(sp)
	mul	a6, a5, s9
	ld	s11, 64(sp)
	mul	a4, a3, s11
	add	a4, a4, a6
	sd	a4, 592(sp)
	ld	s4, 136(sp)
	mul	t4, s2, s4
	ld	t1, 176(sp)
	mul	a4, a2, t1
	add	ra, t4, a4
	mul	t5, a5, s1
	ld	t4, 56(sp)
	mul	a4, a3, t4
	add	t5, t5, a4
	mul	a4, s2, s3
	ld	t3, 168(sp)
	mul	s0, a2, t3
	add	t2, a4, s0
	ld	a0, 40(sp)
	mul	s0, a3, a0
	ld	a0, 48(sp)
	mul	a3, a3, a0
	mul	a4, a5, s11
	add	s6, a4, a3
	ld	a3, 128(sp)
	mul	a4, a2, a3
	ld	t0, 152(sp)
	mul	a2, a2, t0
	mul	a3, s2, t1
	add	a7, a3, a2
	mul	a3, a5, t4
	add	a3, a3, s0
	sd	a3, 584(sp)
	mul	a5, s2, t3
	add	a4, a4, a5
	sd	a4, 576(sp)
	ld	a6, 160(sp)
	mul	a5, t6, a6
	ld	a2, 600(sp)
	add	a2, a2, a5
	sd	a2, 600(sp)
	ld	a4, 32(sp)
	mul	s0, s7, a4
	ld	a2, 608(sp)
	add	a2, a2, s0
	sd	a2, 568(sp)
	mul	s0, t6, s8
	add	s0, s0, ra
	sd	s0, 608(sp)
	ld	a2, 104(sp)
	mul	s0, s7, a2
	ld	a3, 592(sp)
	add	a3, a3, s0
	sd	a3, 560(sp)
	mul	s0, t6, s4
	add	t2, t2, s0
	sd	t2, 592(sp)
	mul	a3, s7, s9
	add	a3, a3, t5
	sd	a3, 544(sp)
	mul	a5, t6, s3
	add	a5, a5, a7
	sd	a5, 552(sp)
	mul	a5, s7, s1
	add	s6, s6, a5
	mul	t5, s7, s11
	mul	s2, s5, s11
	mul	ra, s5, t4
	mul	s11, s5, a0
	mul	a7, s5, s9
	mul	t2, s5, s1
	ld	a0, 24(sp)
	mul	s5, s10, a0
	mul	s7, s10, a4
	mul	a0, s10, a2
	sd	a0, 536(sp)
	mul	s9, s10, s9
	mul	s10, s10, s1
	ld	s1, 16(sp)
	slli	s1, s1, 32
	srli	s1, s1, 32
	mul	a2, t6, t1
	ld	a3, 624(sp)
	mul	s0, a3, t1
	mul	t6, a3, t3
	mul	t4, a3, t0
	mul	t0, a3, s4
	mul	t3, a3, s3
	ld	a0, 616(sp)
	mul	s1, a0, s1
	mul	a3, a0, a6
	mul	a5, a0, s8
	mul	a6, a0, s4
	mul	s3, a0, s3
	ld	a0, 576(sp)
	add	a2, a2, a0
	ld	t1, 584(sp)
	add	t1, t1, t5
	ld	a0, 568(sp)
	add	a7, a7, a0
	ld	a0, 600(sp)
	add	a0, a0, t0
	ld	t0, 560(sp)
	add	t0, t0, t2
	ld	a4, 608(sp)
	add	t3, t3, a4
	ld	t2, 544(sp)
	add	t2, t2, s2
	ld	a4, 592(sp)
	add	s0, s0, a4
	add	s4, s6, ra
	ld	t5, 552(sp)
	add	t5, t5, t6
	add	t1, t1, s11
	add	a2, a2, t4
	add	a0, a0, s1
	add	a7, a7, s5
	add	a3, a3, t3
	add	t0, t0, s7
	add	a5, a5, s0
	ld	a4, 536(sp)
	add	t2, t2, a4
	add	a6, a6, t5
	add	s4, s4, s9
	add	a2, a2, s3
	add	t1, t1, s10
	add	a0, a0, a7
	add	a3, a3, t0
	add	a5, a5, t2
	add	a6, a6, s4
	add	t1, t1, a2
	ld	a2, 640(sp)
	and	a4, a0, a2
	srli	a0, a0, 26
	add	a0, a0, a3
	and	a3, a6, a2
	srli	s1, a6, 26
	add	t1, t1, s1
	and	s1, a0, a2
	srli	a0, a0, 26
	add	a0, a0, a5
	srli	a5, t1, 26
	add	a4, a4, a5
	slli	a5, a5, 2
	add	a4, a4, a5
	and	s0, a0, a2
	srli	a0, a0, 26
	add	a0, a0, a3
	and	a3, a4, a2
	srli	a4, a4, 26
	add	a4, a4, s1
	slli	a5, s0, 52
	or	a3, a3, a5
	and	s1, t1, a2
	srli	s0, s0, 12
	and	a5, a0, a2
	srli	a0, a0, 26
	add	a2, s1, a0
	srli	a0, a4, 38
	slli	a4, a4, 26
	slli	a5, a5, 14
	add	a4, a4, a3
	add	s0, s0, a0
	slli	a0, a2, 40
	srli	a2, a2, 24
	sltu	a3, a4, a3
	add	a5, a5, s0
	not	s1, a0
	add	a3, a3, a5
	sltu	a5, s1, a3
	add	a0, a0, a3
	add	s1, a5, a2
	addi	a2, a0, 1
	srli	a5, s1, 2
	andi	a3, s1, 12
	seqz	s0, a2
	add	a2, a3, a5
	not	a3, a2
	add	t3, a4, a2
	sltu	a3, a3, a4
	sltu	a5, t3, a4
	and	a4, s0, a3
	srli	a3, t3, 40
	add	t1, a0, a5
	srli	a5, t3, 32
	ld	s9, 88(sp)
	sb	a5, 4(s9)
	srli	a5, t3, 48
	sb	a3, 5(s9)
	srli	a3, t3, 56
	sb	a5, 6(s9)
	srli	a5, t3, 16
	sb	a3, 7(s9)
	srli	a3, t3, 8
	sb	a3, 1(s9)
	srli	a3, t3, 24
	sb	a5, 2(s9)
	sb	zero, 20(s9)
	sb	zero, 21(s9)
	sb	zero, 22(s9)
	sb	zero, 23(s9)
	sb	zero, 28(s9)
	sb	zero, 29(s9)
	sb	zero, 30(s9)
	sb	zero, 31(s9)
	sb	zero, 24(s9)
	sb	zero, 25(s9)
	sb	zero, 26(s9)
	sb	zero, 27(s9)
	andi	s1, s1, 3
	sb	t3, 0(s9)
	sb	a3, 3(s9)
	add	t0, s1, a4
	srli	a4, t1, 40
	srli	a5, t1, 32
	sb	a5, 12(s9)
	srli	a5, t1, 48
	sb	a4, 13(s9)
	srli	a4, t1, 56
	sb	a5, 14(s9)
	srli	a5, t1, 16
	sb	a4, 15(s9)
	srli	a4, t1, 8
	sb	a4, 9(s9)
	srli	a4, t1, 24
	sb	a5, 10(s9)
	li	a5, 80
	sb	t1, 8(s9)
	sb	a4, 11(s9)
	sb	t0, 16(s9)
	sb	zero, 17(s9)
	sb	zero, 18(s9)
	sb	zero, 19(s9)
	ld	a0, 632(sp)
	addi	s2, a0, -64
	bgeu	a0, a5, .Lnoise_BB5_6
.Lnoise_BB5_3:
	srli	a0, t3, 56
	srli	a2, t3, 48
	srli	a3, t3, 40
	srli	a4, t3, 32
	srli	a5, t3, 24
	srli	s1, t3, 16
	srli	s0, t3, 8
	srli	a6, t1, 56
	srli	a7, t1, 48
	srli	t2, t1, 40
	srli	t4, t1, 32
	srli	t5, t1, 24
	sb	a4, 4(s9)
	sb	a3, 5(s9)
	sb	a2, 6(s9)
	sb	a0, 7(s9)
	srli	a0, t1, 16
	sb	t3, 0(s9)
	sb	s0, 1(s9)
	sb	s1, 2(s9)
	sb	a5, 3(s9)
	srli	a2, t1, 8
	sb	zero, 20(s9)
	sb	zero, 21(s9)
	sb	zero, 22(s9)
	sb	zero, 23(s9)
	sb	t0, 16(s9)
	sb	zero, 17(s9)
	sb	zero, 18(s9)
	sb	zero, 19(s9)
	sb	zero, 28(s9)
	sb	zero, 29(s9)
	sb	zero, 30(s9)
	sb	zero, 31(s9)
	sb	t4, 12(s9)
	sb	t2, 13(s9)
	sb	a7, 14(s9)
	sb	a6, 15(s9)
	ld	s0, 80(s9)
	sb	t1, 8(s9)
	sb	a2, 9(s9)
	sb	a0, 10(s9)
	sb	t5, 11(s9)
	add	a0, s9, s0
	addi	a0, a0, 64
	sub	a2, a0, a1
	sb	zero, 24(s9)
	sb	zero, 25(s9)
	sb	zero, 26(s9)
	sb	zero, 27(s9)
	bgeu	a2, s2, .Lnoise_BB5_11
	add	a2, a1, s2
.Lnoise_BB5_5:
	lbu	a3, 0(a1)
	addi	a1, a1, 1
	sb	a3, 0(a0)
	addi	a0, a0, 1
	bne	a1, a2, .Lnoise_BB5_5
	j	.Lnoise_BB5_12
.Lnoise_BB5_6:
	li	a6, -1
	ld	s10, 96(sp)
	srli	a7, s10, 2
	add	a7, a7, s10
	ld	s11, 8(sp)
	j	.Lnoise_BB5_9
.Lnoise_BB5_7:
	sltu	a5, a5, t1
.Lnoise_BB5_8:
	addi	a1, a1, 16
	addi	s2, s2, -16
	add	t1, t1, s0
	add	a4, a4, t3
	add	a5, a5, t0
	sltu	a0, a4, t3
	addi	a5, a5, 1
	and	a2, a4, a6
	add	a0, a0, t1
	mul	a3, a2, s11
	mulhu	a4, a2, s11
	mul	s1, a2, s10
	mulhu	a2, a2, s10
	mulhu	s0, a0, a7
	add	a4, a4, s0
	mulhu	s0, a0, s11
	add	a2, a2, s0
	mul	s0, a0, a7
	add	s0, s0, a3
	sltu	a3, s0, a3
	add	a3, a3, a4
	mul	a4, a5, a7
	mul	a5, a5, s11
	mul	a0, a0, s11
	add	a0, a0, s1
	sltu	s1, a0, s1
	add	a4, a4, a0
	and	s0, s0, a6
	add	a2, a2, s1
	sltu	a0, a4, a0
	add	a0, a0, a2
	add	a3, a3, a4
	sltu	a2, a3, a4
	add	a0, a0, a5
	addi	a4, a3, 1
	add	a0, a0, a2
	seqz	a2, a4
	srli	a4, a0, 2
	andi	a5, a0, -4
	andi	a0, a0, 3
	add	a4, a4, a5
	not	a5, a4
	add	t3, s0, a4
	sltu	a4, a5, s0
	sltu	t1, t3, s0
	and	a2, a2, a4
	add	t1, t1, a3
	li	a3, 15
	add	t0, a0, a2
	bgeu	a3, s2, .Lnoise_BB5_3
.Lnoise_BB5_9:
	lbu	t2, 0(a1)
	lbu	t5, 1(a1)
	lbu	s3, 2(a1)
	lbu	t6, 3(a1)
	lbu	t4, 4(a1)
	lbu	s6, 5(a1)
	lbu	s0, 6(a1)
	lbu	s7, 7(a1)
	lbu	s4, 12(a1)
	lbu	a4, 13(a1)
	lbu	a3, 14(a1)
	lbu	a5, 15(a1)
	lbu	s5, 8(a1)
	lbu	a0, 9(a1)
	lbu	s1, 10(a1)
	lbu	a2, 11(a1)
	slli	a3, a3, 16
	slli	a5, a5, 24
	or	s8, a5, a3
	lui	a5, 16
	addi	a5, a5, -1
	slli	a4, a4, 8
	slli	s1, s1, 16
	slli	a2, a2, 24
	slli	a0, a0, 8
	slli	s0, s0, 16
	slli	s7, s7, 24
	slli	s6, s6, 8
	slli	s3, s3, 16
	slli	t6, t6, 24
	slli	t5, t5, 8
	or	a4, s4, a4
	or	s4, a2, s1
	or	a0, s5, a0
	or	s0, s7, s0
	or	s1, t4, s6
	or	a3, t6, s3
	or	a2, t2, t5
	and	a4, a4, a5
	and	a0, a0, a5
	and	s1, s1, a5
	and	a2, a2, a5
	or	a4, a4, s8
	or	a0, a0, s4
	or	s0, s0, s1
	or	a2, a2, a3
	slli	a4, a4, 32
	slli	a0, a0, 32
	slli	a3, s0, 32
	slli	a2, a2, 32
	srli	a0, a0, 32
	or	s0, a0, a4
	srli	a2, a2, 32
	not	a5, s0
	or	a4, a2, a3
	bne	t1, a5, .Lnoise_BB5_7
	not	a0, a4
	sltu	a5, a0, t3
	j	.Lnoise_BB5_8
.Lnoise_BB5_11:
	mv	a2, s2
	call	memmove
.Lnoise_BB5_12:
	add	s0, s0, s2
	sd	s0, 80(s9)
	ld	ra, 888(sp)
	ld	s0, 880(sp)
	ld	s1, 872(sp)
	ld	s2, 864(sp)
	ld	s3, 856(sp)
	ld	s4, 848(sp)
	ld	s5, 840(sp)
	ld	s6, 832(sp)
	ld	s7, 824(sp)
	ld	s8, 816(sp)
	ld	s9, 808(sp)
	ld	s10, 800(sp)
	ld	s11, 792(sp)
	.cfi_restore ra
	.cfi_restore s0
	.cfi_restore s1
	.cfi_restore s2
	.cfi_restore s3
	.cfi_restore s4
	.cfi_restore s5
	.cfi_restore s6
	.cfi_restore s7
	.cfi_restore s8
	.cfi_restore s9
	.cfi_restore s10
	.cfi_restore s11
	addi	sp, sp, 896
	.cfi_def_cfa_offset 0
	ret
.Lnoise_func_end5:
	.size	noise_noise_poly_Poly1305_take_fours, .Lnoise_func_end5-noise_noise_poly_Poly1305_take_fours
	.cfi_endproc

	.section	".text.noise_poly::Poly1305::take_eights","ax",@progbits
	.p2align	1
	.type	noise_noise_poly_Poly1305_take_eights,@function
noise_noise_poly_Poly1305_take_eights:
	.cfi_startproc
	addi	sp, sp, -1040
	.cfi_def_cfa_offset 1040
	sd	ra, 1032(sp)
	sd	s0, 1024(sp)
	sd	s1, 1016(sp)
	sd	s2, 1008(sp)
	sd	s3, 1000(sp)
	sd	s4, 992(sp)
	sd	s5, 984(sp)
	sd	s6, 976(sp)
	sd	s7, 968(sp)
	sd	s8, 960(sp)
	sd	s9, 952(sp)
	sd	s10, 944(sp)
	sd	s11, 936(sp)
	.cfi_offset ra, -8
	.cfi_offset s0, -16
	.cfi_offset s1, -24
	.cfi_offset s2, -32
	.cfi_offset s3, -40
	.cfi_offset s4, -48
	.cfi_offset s5, -56
	.cfi_offset s6, -64
	.cfi_offset s7, -72
	.cfi_offset s8, -80
	.cfi_offset s9, -88
	.cfi_offset s10, -96
	.cfi_offset s11, -104
	sd	a2, 904(sp)
	mv	s11, a0
	ld	ra, 40(a0)
	ld	a3, 32(a0)
	lbu	t2, 0(a1)
	lbu	s4, 1(a1)
	lbu	a6, 2(a1)
	lbu	a7, 3(a1)
	lbu	t0, 4(a1)
	lbu	t3, 5(a1)
	lbu	t5, 6(a1)
	lbu	t4, 7(a1)
	lbu	s6, 10(a1)
	lbu	s0, 11(a1)
	lbu	t1, 12(a1)
	lbu	t6, 13(a1)
	lbu	s2, 14(a1)
	lbu	s3, 15(a1)
	lbu	s5, 16(a1)
	lbu	s7, 17(a1)
	lbu	s8, 18(a1)
	lbu	a5, 19(a1)
	slli	a2, ra, 38
	sd	a3, 104(sp)
	srli	s1, a3, 26
	slli	a0, ra, 12
	srli	a3, a3, 52
	slli	s4, s4, 8
	or	a2, a2, s1
	sd	a2, 920(sp)
	or	a0, a0, a3
	sd	a0, 912(sp)
	or	a0, t2, s4
	sd	a0, 928(sp)
	lbu	t2, 20(a1)
	lbu	s4, 21(a1)
	lbu	s10, 22(a1)
	lbu	s9, 23(a1)
	slli	a6, a6, 16
	slli	a7, a7, 24
	slli	t3, t3, 8
	slli	t5, t5, 16
	slli	t4, t4, 24
	slli	s6, s6, 16
	slli	s0, s0, 24
	or	a0, a7, a6
	sd	a0, 896(sp)
	or	a0, t0, t3
	sd	a0, 888(sp)
	or	t4, t4, t5
	or	s6, s0, s6
	lbu	a6, 24(a1)
	lbu	a2, 25(a1)
	lbu	a3, 26(a1)
	lbu	a4, 27(a1)
	slli	t6, t6, 8
	slli	s2, s2, 16
	slli	s3, s3, 24
	slli	s7, s7, 8
	slli	s8, s8, 16
	slli	a5, a5, 24
	or	a0, t1, t6
	sd	a0, 880(sp)
	or	a0, s3, s2
	sd	a0, 872(sp)
	or	a0, s5, s7
	sd	a0, 864(sp)
	or	s3, a5, s8
	lbu	a7, 28(a1)
	lbu	a0, 29(a1)
	lbu	s1, 30(a1)
	lbu	s0, 31(a1)
	slli	s4, s4, 8
	slli	s10, s10, 16
	slli	s9, s9, 24
	slli	a2, a2, 8
	slli	a3, a3, 16
	slli	a4, a4, 24
	or	s4, t2, s4
	or	a5, s9, s10
	sd	a5, 856(sp)
	or	s5, a6, a2
	or	a3, a3, a4
	sd	a3, 848(sp)
	lbu	a2, 32(a1)
	lbu	a3, 33(a1)
	lbu	a4, 34(a1)
	lbu	a5, 35(a1)
	slli	a0, a0, 8
	slli	s1, s1, 16
	slli	s0, s0, 24
	slli	a3, a3, 8
	slli	a4, a4, 16
	slli	a5, a5, 24
	or	a0, a7, a0
	sd	a0, 840(sp)
	or	s0, s0, s1
	sd	s0, 832(sp)
	or	a2, a2, a3
	sd	a2, 824(sp)
	or	a4, a4, a5
	sd	a4, 816(sp)
	lbu	a0, 37(a1)
	lbu	a2, 38(a1)
	lbu	a3, 39(a1)
	lbu	a4, 36(a1)
	slli	a0, a0, 8
	slli	a2, a2, 16
	slli	a3, a3, 24
	or	a0, a0, a4
	sd	a0, 784(sp)
	or	a2, a2, a3
	sd	a2, 776(sp)
	lbu	a0, 41(a1)
	lbu	a2, 40(a1)
	lbu	a3, 42(a1)
	lbu	a4, 43(a1)
	slli	a0, a0, 8
	or	t3, a2, a0
	slli	a3, a3, 16
	slli	a4, a4, 24
	or	a3, a3, a4
	sd	a3, 768(sp)
	lbu	a0, 45(a1)
	lbu	a2, 44(a1)
	lbu	a3, 46(a1)
	lbu	a4, 47(a1)
	slli	a0, a0, 8
	or	s10, a2, a0
	slli	a3, a3, 16
	slli	a4, a4, 24
	or	s7, a4, a3
	lbu	a0, 49(a1)
	lbu	a2, 48(a1)
	lbu	a3, 50(a1)
	lbu	a4, 51(a1)
	slli	a0, a0, 8
	or	a7, a2, a0
	slli	a3, a3, 16
	slli	a4, a4, 24
	or	s0, a4, a3
	lbu	a0, 53(a1)
	lbu	a2, 52(a1)
	lbu	a3, 54(a1)
	lbu	a4, 55(a1)
	slli	a0, a0, 8
	or	t0, a2, a0
	slli	a3, a3, 16
	slli	a4, a4, 24
	or	t2, a4, a3
	lbu	a0, 57(a1)
	lbu	a2, 56(a1)
	lbu	a4, 58(a1)
	lbu	a5, 59(a1)
	slli	a0, a0, 8
	or	t6, a2, a0
	slli	a4, a4, 16
	slli	a5, a5, 24
	or	s8, a5, a4
	lbu	a0, 61(a1)
	lbu	a2, 60(a1)
	lbu	a4, 62(a1)
	lbu	a5, 63(a1)
	slli	a0, a0, 8
	or	s1, a2, a0
	slli	a2, a4, 16
	lbu	a0, 16(s11)
	slli	a5, a5, 24
	ld	a4, 8(s11)
	or	a6, a5, a2
	slli	a0, a0, 24
	sd	s11, 96(sp)
	ld	a3, 0(s11)
	sd	a3, 808(sp)
	srli	a2, a4, 40
	sd	a4, 800(sp)
	or	a0, a0, a2
	sd	a0, 760(sp)
	slli	a0, a4, 12
	srli	a2, a3, 52
	or	a0, a0, a2
	sd	a0, 792(sp)
	lbu	a0, 9(a1)
	lbu	a2, 8(a1)
	lui	a5, 16
	addi	a4, a5, -1
	slli	a0, a0, 8
	or	t5, a2, a0
	and	a0, a0, a4
	or	t1, a0, s6
	ld	a0, 928(sp)
	and	a0, a0, a4
	ld	a2, 896(sp)
	or	s9, a0, a2
	ld	a0, 888(sp)
	and	a0, a0, a4
	or	s2, a0, t4
	ld	a0, 880(sp)
	and	a0, a0, a4
	ld	a5, 872(sp)
	or	a5, a5, a0
	ld	a2, 864(sp)
	and	a2, a2, a4
	or	a0, a2, s3
	sd	a0, 872(sp)
	and	a2, s4, a4
	ld	a0, 856(sp)
	or	s4, a2, a0
	and	s3, s5, a4
	mv	t4, s5
	ld	a0, 848(sp)
	or	s3, s3, a0
	ld	a3, 840(sp)
	and	a3, a3, a4
	ld	a0, 832(sp)
	or	s6, a3, a0
	ld	a3, 824(sp)
	and	a3, a3, a4
	ld	a0, 816(sp)
	or	a0, a0, a3
	sd	a0, 856(sp)
	ld	a3, 784(sp)
	and	a3, a3, a4
	ld	a0, 776(sp)
	or	s11, a3, a0
	and	a3, t3, a4
	ld	a0, 768(sp)
	or	a0, a0, a3
	sd	a0, 848(sp)
	and	a3, s10, a4
	or	s7, a3, s7
	and	a3, a7, a4
	or	a3, a3, s0
	sd	a3, 840(sp)
	and	a3, t0, a4
	or	s5, a3, t2
	and	s0, t6, a4
	or	a0, s0, s8
	sd	a0, 832(sp)
	sd	a4, 240(sp)
	and	a4, a4, s1
	or	a0, a4, a6
	sd	a0, 784(sp)
	lui	s0, 16384
	addi	a7, s0, -1
	srli	s0, ra, 14
	and	s8, s0, a7
	ld	a0, 920(sp)
	and	s10, a0, a7
	ld	a0, 912(sp)
	and	t0, a0, a7
	ld	a0, 104(sp)
	and	a0, a0, a7
	mul	t2, a0, s8
	mul	s0, s10, t0
	add	t2, t2, s0
	sd	ra, 16(sp)
	srli	a6, ra, 40
	mul	ra, a0, a6
	mul	s0, s10, s8
	add	ra, ra, s0
	slli	s0, a0, 1
	mul	a3, s10, s10
	mul	a4, s0, t0
	add	a2, a3, a4
	slli	a4, a6, 2
	add	a3, a4, a6
	mul	a4, s0, s10
	mul	s0, a3, t0
	add	a4, a4, s0
	sd	a0, 64(sp)
	mul	s0, a0, a0
	mul	s1, a3, s10
	add	s0, s0, s1
	slli	t1, t1, 32
	srli	s1, t1, 32
	slli	a0, a5, 32
	or	a0, a0, s1
	sd	a0, 824(sp)
	lui	a0, 4096
	ld	s1, 760(sp)
	add	a0, a0, s1
	srliw	a5, a5, 8
	add	a0, a0, a5
	sd	a0, 920(sp)
	slli	t5, t5, 12
	srliw	a0, s2, 20
	or	t1, t5, a0
	slli	a5, t4, 12
	srliw	s1, s4, 20
	or	a5, a5, s1
	sd	a5, 896(sp)
	slli	a5, t3, 12
	srliw	s1, s11, 20
	or	a5, a5, s1
	sd	a5, 888(sp)
	slli	t6, t6, 12
	srliw	a5, s5, 20
	or	a0, t6, a5
	sd	a0, 880(sp)
	mul	a5, a3, s8
	add	t6, a2, a5
	slli	a5, s8, 2
	add	t4, a5, s8
	mul	a5, t4, s8
	add	s1, a4, a5
	mul	a4, t4, t0
	add	a0, s0, a4
	slli	s9, s9, 32
	slli	a5, s2, 32
	srli	a4, s9, 32
	or	a5, a5, a4
	ld	s2, 872(sp)
	slli	s2, s2, 32
	slli	a2, s4, 32
	srli	a4, s2, 32
	or	a2, a2, a4
	sd	a2, 872(sp)
	slli	s3, s3, 32
	srli	a2, s3, 32
	slli	s0, s6, 32
	mv	s2, s6
	or	a2, a2, s0
	sd	a2, 864(sp)
	ld	s4, 856(sp)
	slli	s4, s4, 32
	slli	s11, s11, 32
	srli	a2, s4, 32
	or	s11, a2, s11
	ld	s6, 848(sp)
	slli	s6, s6, 32
	srli	a2, s6, 32
	slli	s0, s7, 32
	mv	t5, s7
	or	a2, a2, s0
	sd	a2, 856(sp)
	ld	s7, 840(sp)
	slli	s7, s7, 32
	slli	t3, s5, 32
	srli	a2, s7, 32
	or	s9, a2, t3
	ld	s5, 832(sp)
	slli	s5, s5, 32
	srli	a2, s5, 32
	ld	s7, 784(sp)
	slli	a4, s7, 32
	or	s5, a2, a4
	slli	t2, t2, 1
	sd	a3, 56(sp)
	mul	a2, a3, a6
	add	t2, t2, a2
	slli	ra, ra, 1
	mul	a4, t0, t0
	add	a4, a4, ra
	sd	t4, 40(sp)
	mul	s0, t4, a6
	add	a3, t6, s0
	slli	s0, t0, 2
	sd	t0, 72(sp)
	add	t0, t0, s0
	mul	s0, t0, a6
	add	s0, s0, s1
	sd	s8, 88(sp)
	sd	t0, 32(sp)
	mul	s1, t0, s8
	add	a0, a0, s1
	ld	a2, 792(sp)
	and	s1, a2, a7
	and	t1, t1, a7
	add	t1, t1, s1
	sd	t1, 912(sp)
	slli	s1, s10, 2
	sd	s10, 80(sp)
	add	s1, s1, s10
	sd	a6, 48(sp)
	sd	s1, 24(sp)
	mul	s1, s1, a6
	add	a0, a0, s1
	ld	t4, 800(sp)
	slli	t4, t4, 24
	srli	s3, t4, 38
	ld	s10, 824(sp)
	slli	s10, s10, 24
	srli	s1, s10, 38
	add	s3, s3, s1
	ld	s8, 808(sp)
	and	t3, s8, a7
	and	s1, a5, a7
	add	t3, t3, s1
	srli	a2, t2, 26
	add	a2, a2, a4
	slli	s8, s8, 12
	srli	s10, s8, 38
	slli	a5, a5, 12
	srli	a5, a5, 38
	add	s10, s10, a5
	srli	a4, a0, 26
	add	a4, a4, s0
	srli	a5, a4, 26
	add	s1, a3, a5
	and	a0, a0, a7
	srli	a5, a2, 26
	add	a0, a0, a5
	slli	a5, a5, 2
	add	a0, a0, a5
	and	a5, t2, a7
	srli	a3, s1, 26
	add	a3, a3, a5
	and	a5, a4, a7
	srli	a4, a0, 26
	add	t4, a5, a4
	and	a2, a2, a7
	srli	a4, a3, 26
	add	a2, a2, a4
	and	a5, s1, a7
	and	a0, a0, a7
	mul	a4, a5, a0
	slli	a4, a4, 1
	mul	s0, t4, t4
	add	t2, s0, a4
	and	a3, a3, a7
	mul	s0, a5, t4
	mul	a4, a3, a0
	add	t6, s0, a4
	slli	s1, a5, 2
	add	s1, s1, a5
	mul	s0, a0, a0
	mul	a4, a3, s1
	add	s4, a4, s0
	mul	s0, a3, t4
	mul	a4, a0, a2
	add	s6, a4, s0
	mul	a0, a0, t4
	slli	a0, a0, 1
	mul	s0, s1, a2
	add	a0, a0, s0
	slli	s0, t4, 2
	addw	s0, s0, t4
	mul	s0, a2, s0
	add	s0, s0, s4
	slli	s1, a3, 2
	add	s1, s1, a3
	mul	a4, s1, a2
	add	t2, t2, a4
	mul	a4, s1, a3
	add	a0, a0, a4
	mul	a4, s1, a5
	add	a4, a4, s0
	slli	s0, a2, 2
	add	s0, s0, a2
	slli	t6, t6, 1
	mul	a2, s0, a2
	add	t6, t6, a2
	mul	a3, a3, s0
	mul	s1, s0, t4
	mul	s0, a5, s0
	mul	a5, a5, a5
	slli	s6, s6, 1
	add	a5, a5, s6
	add	a3, a3, t2
	add	a0, a0, s0
	add	a4, a4, s1
	srli	a2, t6, 26
	add	a2, a2, a5
	srli	a5, a4, 26
	add	a0, a0, a5
	srli	a5, a0, 26
	add	a6, a3, a5
	and	a4, a4, a7
	srli	a5, a2, 26
	add	a4, a4, a5
	slli	a5, a5, 2
	add	s1, a5, a4
	and	a5, t6, a7
	srli	a3, a6, 26
	add	a4, a3, a5
	and	a0, a0, a7
	srli	a5, s1, 26
	add	t1, a0, a5
	and	a5, a2, a7
	srli	a2, a4, 26
	add	t2, a5, a2
	and	s0, a6, a7
	and	s1, s1, a7
	and	a0, a4, a7
	mul	a6, s0, t1
	mul	a2, a0, s1
	add	a6, a6, a2
	slli	a2, s1, 1
	mul	a5, t1, t1
	mul	a4, a2, s0
	add	t0, a5, a4
	slli	a4, s0, 2
	add	a3, a4, s0
	mul	a4, s1, s1
	mul	a5, a0, a3
	add	a4, a4, a5
	mul	a5, a0, t1
	sd	s1, 208(sp)
	mul	s1, s1, t2
	add	a5, a5, s1
	mul	a2, a2, t1
	sd	a3, 200(sp)
	mul	s1, a3, t2
	add	a2, a2, s1
	slli	s1, a0, 2
	add	a3, s1, a0
	mul	s1, a3, t2
	add	t0, t0, s1
	mul	s1, a3, a0
	add	a2, a2, s1
	sd	a3, 192(sp)
	mul	s1, a3, s0
	add	a4, a4, s1
	slli	s1, t2, 2
	add	a3, s1, t2
	slli	a6, a6, 1
	mul	s1, a3, t2
	add	a6, a6, s1
	slli	a5, a5, 1
	mul	s1, s0, s0
	add	a5, a5, s1
	sd	a0, 816(sp)
	mul	s1, a0, a3
	add	t0, t0, s1
	sd	s0, 216(sp)
	mul	s1, s0, a3
	add	a2, a2, s1
	slli	s1, t1, 2
	addw	a0, s1, t1
	sd	t2, 224(sp)
	sd	a0, 176(sp)
	mul	s1, t2, a0
	add	a4, a4, s1
	sd	t1, 232(sp)
	sd	a3, 184(sp)
	mul	s1, a3, t1
	add	a4, a4, s1
	srli	a0, a6, 26
	add	a0, a0, a5
	srli	a5, a4, 26
	add	a2, a2, a5
	srli	t2, a2, 26
	add	t0, t0, t2
	sd	t0, 848(sp)
	and	a3, a4, a7
	srli	a4, a0, 26
	add	a3, a3, a4
	slli	a4, a4, 2
	add	s1, a4, a3
	and	a3, a6, a7
	srli	a4, t0, 26
	add	ra, a4, a3
	and	a2, a2, a7
	srli	a3, s1, 26
	add	a4, a2, a3
	and	a0, a0, a7
	srli	a2, ra, 26
	add	t0, a0, a2
	ld	a0, 904(sp)
	addi	a0, a0, -64
	sd	a0, 824(sp)
	addi	a1, a1, 64
	srliw	a0, s2, 8
	srliw	a2, t5, 8
	srliw	a3, s7, 8
	lui	a5, 4096
	or	s4, a3, a5
	or	t6, a2, a5
	or	s7, a0, a5
	ld	a0, 880(sp)
	and	t4, a0, a7
	ld	a0, 888(sp)
	and	t5, a0, a7
	ld	a0, 896(sp)
	and	s6, a0, a7
	slli	a0, s5, 24
	ld	a6, 856(sp)
	slli	a6, a6, 24
	ld	t1, 864(sp)
	slli	t1, t1, 24
	slli	s2, s9, 12
	and	a3, s9, a7
	slli	a2, s11, 12
	and	s9, s11, a7
	ld	s0, 872(sp)
	slli	a5, s0, 12
	and	t2, s0, a7
	srli	a0, a0, 38
	srli	s5, a6, 38
	srli	s11, t1, 38
	srli	a6, s2, 38
	srli	t1, a2, 38
	srli	s8, a5, 38
	ld	a2, 848(sp)
	and	a2, a2, a7
	and	s0, ra, a7
	slli	a5, a2, 2
	sd	a2, 152(sp)
	add	a2, a2, a5
	sd	a2, 136(sp)
	slli	a5, a4, 2
	sd	a4, 168(sp)
	addw	a4, a4, a5
	sd	a4, 128(sp)
	slli	a5, s0, 2
	sd	s0, 144(sp)
	add	a5, a5, s0
	sd	a5, 808(sp)
	slli	a5, t0, 2
	sd	t0, 160(sp)
	add	a5, a5, t0
	sd	a5, 120(sp)
	sd	a7, 928(sp)
	and	a2, s1, a7
	sd	a2, 112(sp)
.Lnoise_BB6_1:
	srli	a5, a3, 26
	srli	s0, s9, 26
	srli	s1, t2, 26
	srli	a4, t3, 26
	srli	a7, s3, 26
	srli	t0, s11, 26
	srli	s2, s5, 26
	add	s10, s10, a4
	sd	s10, 848(sp)
	srli	a4, a0, 26
	ld	a2, 928(sp)
	and	t3, t3, a2
	and	t2, t2, a2
	and	ra, s9, a2
	and	s9, a3, a2
	and	a0, a0, a2
	sd	a0, 896(sp)
	and	s5, s5, a2
	and	s11, s11, a2
	and	s3, s3, a2
	add	s8, s8, s1
	sd	s8, 840(sp)
	add	t1, t1, s0
	add	a6, a6, a5
	add	s4, s4, a4
	sd	s4, 880(sp)
	lbu	a5, 0(a1)
	lbu	s1, 1(a1)
	lbu	a4, 2(a1)
	lbu	a2, 3(a1)
	add	t6, t6, s2
	sd	t6, 888(sp)
	add	t0, t0, s7
	sd	t0, 872(sp)
	ld	s0, 920(sp)
	add	s0, s0, a7
	sd	s0, 864(sp)
	srli	s2, a6, 26
	srli	a0, t1, 26
	srli	a3, s10, 26
	ld	a7, 912(sp)
	add	a7, a7, a3
	sd	a7, 768(sp)
	srli	a3, s8, 26
	add	s6, s6, a3
	sd	s6, 776(sp)
	srli	a3, s0, 26
	add	t5, t5, a0
	sd	t5, 792(sp)
	srli	a0, t0, 26
	add	t4, t4, s2
	sd	t4, 800(sp)
	srli	s0, t6, 26
	add	t3, t3, a3
	slli	a3, a3, 2
	add	a3, a3, t3
	sd	a3, 752(sp)
	srli	a3, s4, 26
	add	s9, s9, a3
	add	ra, ra, s0
	add	s10, t2, a0
	slli	a3, a3, 2
	slli	s0, s0, 2
	slli	a0, a0, 2
	add	a0, a0, s10
	sd	a0, 744(sp)
	add	s0, s0, ra
	sd	s0, 728(sp)
	add	t3, s9, a3
	srli	a0, t4, 26
	srli	a3, t5, 26
	srli	s0, a7, 26
	add	s0, s0, s3
	sd	s0, 920(sp)
	srli	s0, s6, 26
	slli	s1, s1, 8
	add	s0, s0, s11
	sd	s0, 912(sp)
	add	a3, a3, s5
	sd	a3, 904(sp)
	ld	a3, 896(sp)
	add	a0, a0, a3
	sd	a0, 896(sp)
	or	a5, a5, s1
	sd	a5, 856(sp)
	lbu	a0, 4(a1)
	lbu	a3, 5(a1)
	lbu	a5, 6(a1)
	lbu	s1, 7(a1)
	slli	a4, a4, 16
	slli	a2, a2, 24
	slli	a3, a3, 8
	or	a2, a2, a4
	sd	a2, 832(sp)
	or	a0, a0, a3
	sd	a0, 760(sp)
	lbu	a0, 10(a1)
	lbu	a2, 11(a1)
	slli	a5, a5, 16
	slli	s1, s1, 24
	slli	a0, a0, 16
	slli	a2, a2, 24
	or	a5, a5, s1
	sd	a5, 736(sp)
	or	a0, a0, a2
	sd	a0, 656(sp)
	lbu	a0, 13(a1)
	lbu	a2, 12(a1)
	lbu	a3, 14(a1)
	lbu	a4, 15(a1)
	slli	a0, a0, 8
	or	a0, a0, a2
	sd	a0, 720(sp)
	slli	a3, a3, 16
	slli	a4, a4, 24
	or	a3, a3, a4
	sd	a3, 712(sp)
	lbu	a0, 17(a1)
	lbu	a2, 16(a1)
	lbu	a3, 18(a1)
	lbu	a4, 19(a1)
	slli	a0, a0, 8
	or	a0, a0, a2
	sd	a0, 704(sp)
	slli	a3, a3, 16
	slli	a4, a4, 24
	or	a3, a3, a4
	sd	a3, 696(sp)
	lbu	a0, 21(a1)
	lbu	a2, 20(a1)
	lbu	a3, 22(a1)
	lbu	a4, 23(a1)
	slli	a0, a0, 8
	or	a0, a0, a2
	sd	a0, 688(sp)
	slli	a3, a3, 16
	lbu	a0, 26(a1)
	lbu	a2, 27(a1)
	slli	a4, a4, 24
	or	a3, a3, a4
	sd	a3, 680(sp)
	slli	a0, a0, 16
	slli	a2, a2, 24
	or	a0, a0, a2
	sd	a0, 632(sp)
	lbu	a0, 29(a1)
	lbu	a2, 28(a1)
	lbu	a3, 30(a1)
	lbu	a4, 31(a1)
	slli	a0, a0, 8
	or	a0, a0, a2
	sd	a0, 672(sp)
	slli	a3, a3, 16
	slli	a4, a4, 24
	or	a3, a3, a4
	sd	a3, 664(sp)
	lbu	a0, 33(a1)
	lbu	a2, 32(a1)
	lbu	a3, 34(a1)
	lbu	a4, 35(a1)
	slli	a0, a0, 8
	or	a0, a0, a2
	sd	a0, 648(sp)
	slli	a3, a3, 16
	slli	a4, a4, 24
	or	a3, a3, a4
	sd	a3, 640(sp)
	lbu	a0, 37(a1)
	lbu	a2, 36(a1)
	lbu	a3, 38(a1)
	lbu	a4, 39(a1)
	slli	a0, a0, 8
	or	a0, a0, a2
	sd	a0, 624(sp)
	slli	a3, a3, 16
	lbu	a0, 42(a1)
	lbu	a2, 43(a1)
	slli	a4, a4, 24
	or	a3, a3, a4
	sd	a3, 616(sp)
	slli	a0, a0, 16
	slli	a2, a2, 24
	or	a0, a0, a2
	sd	a0, 544(sp)
	lbu	a0, 45(a1)
	lbu	a2, 44(a1)
	lbu	a3, 46(a1)
	lbu	a4, 47(a1)
	slli	a0, a0, 8
	or	a0, a0, a2
	sd	a0, 608(sp)
	slli	a3, a3, 16
	slli	a4, a4, 24
	or	a3, a3, a4
	sd	a3, 600(sp)
	lbu	a0, 49(a1)
	lbu	a2, 48(a1)
	lbu	a3, 50(a1)
	lbu	a4, 51(a1)
	slli	a0, a0, 8
	or	a0, a0, a2
	sd	a0, 592(sp)
	slli	a3, a3, 16
	slli	a4, a4, 24
	or	a3, a3, a4
	sd	a3, 584(sp)
	lbu	a0, 53(a1)
	lbu	a2, 52(a1)
	lbu	a3, 54(a1)
	lbu	a4, 55(a1)
	slli	a0, a0, 8
	or	a0, a0, a2
	sd	a0, 576(sp)
	slli	a3, a3, 16
	lbu	a0, 58(a1)
	lbu	a2, 59(a1)
	slli	a4, a4, 24
	or	a3, a3, a4
	sd	a3, 568(sp)
	slli	a0, a0, 16
	slli	a2, a2, 24
	or	a0, a0, a2
	sd	a0, 536(sp)
	lbu	a0, 61(a1)
	lbu	a2, 60(a1)
	lbu	a3, 62(a1)
	lbu	a4, 63(a1)
	slli	a0, a0, 8
	or	a0, a0, a2
	sd	a0, 560(sp)
	slli	a3, a3, 16
	slli	a4, a4, 24
	or	a3, a3, a4
	sd	a3, 552(sp)
	lbu	a0, 65(a1)
	lbu	a2, 64(a1)
	lbu	a3, 66(a1)
	lbu	a4, 67(a1)
	slli	a0, a0, 8
	or	a0, a0, a2
	sd	a0, 344(sp)
	slli	a3, a3, 16
	slli	a4, a4, 24
	or	a3, a3, a4
	sd	a3, 336(sp)
	lbu	a0, 69(a1)
	lbu	a2, 68(a1)
	lbu	a3, 70(a1)
	lbu	a4, 71(a1)
	slli	a0, a0, 8
	or	a0, a0, a2
	sd	a0, 328(sp)
	slli	a3, a3, 16
	lbu	a0, 74(a1)
	lbu	a2, 75(a1)
	slli	a4, a4, 24
	or	a3, a3, a4
	sd	a3, 320(sp)
	slli	a0, a0, 16
	slli	a2, a2, 24
	or	s8, a2, a0
	lbu	a2, 77(a1)
	lbu	a3, 76(a1)
	lbu	a4, 78(a1)
	lbu	a5, 79(a1)
	slli	a2, a2, 8
	or	a2, a2, a3
	sd	a2, 312(sp)
	slli	a4, a4, 16
	slli	a5, a5, 24
	or	a4, a4, a5
	sd	a4, 304(sp)
	lbu	a2, 81(a1)
	lbu	a3, 80(a1)
	lbu	a4, 82(a1)
	lbu	a5, 83(a1)
	slli	a2, a2, 8
	or	a2, a2, a3
	sd	a2, 296(sp)
	slli	a4, a4, 16
	slli	a5, a5, 24
	or	a4, a4, a5
	sd	a4, 288(sp)
	lbu	a2, 85(a1)
	lbu	a3, 84(a1)
	lbu	a4, 86(a1)
	lbu	a5, 87(a1)
	slli	a2, a2, 8
	or	a2, a2, a3
	sd	a2, 280(sp)
	slli	a4, a4, 16
	lbu	a2, 90(a1)
	lbu	a3, 91(a1)
	slli	a5, a5, 24
	or	a4, a4, a5
	sd	a4, 272(sp)
	slli	a2, a2, 16
	slli	a3, a3, 24
	or	s9, a3, a2
	lbu	a2, 93(a1)
	lbu	a3, 92(a1)
	lbu	a4, 94(a1)
	lbu	a5, 95(a1)
	slli	a2, a2, 8
	or	a2, a2, a3
	sd	a2, 264(sp)
	slli	a4, a4, 16
	slli	a5, a5, 24
	or	a4, a4, a5
	sd	a4, 256(sp)
	lbu	a2, 97(a1)
	lbu	a3, 96(a1)
	lbu	a4, 98(a1)
	lbu	a5, 99(a1)
	slli	a2, a2, 8
	or	a2, a2, a3
	sd	a2, 248(sp)
	slli	a4, a4, 16
	slli	a5, a5, 24
	or	s10, a5, a4
	lbu	a2, 101(a1)
	lbu	a3, 100(a1)
	lbu	a4, 102(a1)
	lbu	a5, 103(a1)
	slli	a2, a2, 8
	or	s6, a3, a2
	slli	a4, a4, 16
	lbu	a2, 106(a1)
	lbu	a3, 107(a1)
	slli	a5, a5, 24
	or	s4, a5, a4
	slli	a2, a2, 16
	slli	a3, a3, 24
	or	s0, a3, a2
	lbu	a2, 109(a1)
	lbu	a3, 108(a1)
	lbu	a4, 110(a1)
	lbu	a5, 111(a1)
	slli	a2, a2, 8
	or	s5, a3, a2
	slli	a4, a4, 16
	slli	a5, a5, 24
	or	ra, a5, a4
	lbu	a2, 113(a1)
	lbu	a3, 112(a1)
	lbu	a4, 114(a1)
	lbu	a5, 115(a1)
	slli	a2, a2, 8
	or	s7, a3, a2
	slli	a4, a4, 16
	slli	a5, a5, 24
	or	s11, a5, a4
	lbu	a2, 117(a1)
	lbu	a3, 116(a1)
	lbu	a4, 118(a1)
	lbu	a5, 119(a1)
	slli	a2, a2, 8
	or	s3, a3, a2
	slli	a4, a4, 16
	lbu	a2, 122(a1)
	lbu	a3, 123(a1)
	slli	a5, a5, 24
	or	s2, a5, a4
	slli	a2, a2, 16
	slli	a3, a3, 24
	or	a5, a3, a2
	lbu	a2, 125(a1)
	lbu	a4, 124(a1)
	lbu	a0, 126(a1)
	lbu	t2, 127(a1)
	slli	a2, a2, 8
	or	t6, a4, a2
	slli	a0, a0, 16
	slli	a4, t2, 24
	or	t0, a4, a0
	ld	a2, 928(sp)
	and	a6, a6, a2
	mv	t5, t3
	srli	a0, t3, 26
	add	a0, a0, a6
	sd	a0, 392(sp)
	and	t2, t1, a2
	ld	t1, 728(sp)
	srli	a0, t1, 26
	add	a0, a0, t2
	sd	a0, 384(sp)
	ld	a0, 840(sp)
	and	t3, a0, a2
	ld	a7, 744(sp)
	srli	a0, a7, 26
	add	a0, a0, t3
	sd	a0, 376(sp)
	ld	a3, 848(sp)
	and	a3, a3, a2
	mv	a6, a2
	lbu	a0, 9(a1)
	lbu	a2, 8(a1)
	ld	a4, 752(sp)
	srli	t4, a4, 26
	add	a3, a3, t4
	sd	a3, 368(sp)
	slli	a0, a0, 8
	or	a2, a2, a0
	sd	a2, 504(sp)
	sd	a1, 784(sp)
	lbu	a2, 25(a1)
	lbu	t3, 24(a1)
	ld	a3, 240(sp)
	and	a0, a0, a3
	ld	s1, 656(sp)
	or	a0, a0, s1
	sd	a0, 440(sp)
	slli	a2, a2, 8
	or	a0, t3, a2
	sd	a0, 488(sp)
	lbu	a0, 41(a1)
	lbu	t3, 40(a1)
	and	a2, a2, a3
	ld	s1, 632(sp)
	or	a2, a2, s1
	sd	a2, 416(sp)
	slli	a0, a0, 8
	or	a2, t3, a0
	sd	a2, 472(sp)
	lbu	a2, 57(a1)
	lbu	t3, 56(a1)
	and	a0, a0, a3
	ld	s1, 544(sp)
	or	a0, a0, s1
	sd	a0, 408(sp)
	slli	a2, a2, 8
	or	a0, t3, a2
	sd	a0, 464(sp)
	lbu	a0, 73(a1)
	lbu	t3, 72(a1)
	and	a2, a2, a3
	ld	s1, 536(sp)
	or	a2, a2, s1
	sd	a2, 400(sp)
	slli	a0, a0, 8
	or	a2, t3, a0
	sd	a2, 520(sp)
	lbu	a2, 89(a1)
	lbu	t3, 88(a1)
	and	a0, a0, a3
	or	a0, a0, s8
	sd	a0, 456(sp)
	slli	a2, a2, 8
	or	a0, t3, a2
	sd	a0, 512(sp)
	lbu	a0, 105(a1)
	lbu	t3, 104(a1)
	and	a2, a2, a3
	or	a2, a2, s9
	sd	a2, 448(sp)
	slli	a0, a0, 8
	or	a2, t3, a0
	sd	a2, 496(sp)
	lbu	a2, 121(a1)
	lbu	t3, 120(a1)
	and	a0, a0, a3
	or	a0, a0, s0
	sd	a0, 432(sp)
	slli	a2, a2, 8
	or	a0, t3, a2
	sd	a0, 480(sp)
	and	a0, a2, a3
	or	a0, a0, a5
	sd	a0, 424(sp)
	ld	a0, 864(sp)
	and	a0, a0, a6
	ld	a2, 920(sp)
	srli	a2, a2, 26
	add	a0, a0, a2
	sd	a0, 656(sp)
	ld	a0, 872(sp)
	and	a0, a0, a6
	ld	a2, 912(sp)
	srli	a2, a2, 26
	add	a0, a0, a2
	sd	a0, 632(sp)
	ld	a0, 888(sp)
	and	a0, a0, a6
	ld	a2, 904(sp)
	srli	a2, a2, 26
	add	a0, a0, a2
	sd	a0, 544(sp)
	ld	a0, 880(sp)
	and	s8, a0, a6
	ld	a0, 896(sp)
	srli	a0, a0, 26
	add	a0, a0, s8
	sd	a0, 536(sp)
	ld	a0, 856(sp)
	and	a0, a0, a3
	ld	a1, 832(sp)
	or	a0, a0, a1
	sd	a0, 528(sp)
	ld	a0, 760(sp)
	and	a0, a0, a3
	ld	a1, 736(sp)
	or	a0, a0, a1
	sd	a0, 360(sp)
	ld	a0, 720(sp)
	and	a0, a0, a3
	ld	a1, 712(sp)
	or	a0, a0, a1
	sd	a0, 856(sp)
	ld	a0, 704(sp)
	and	a0, a0, a3
	ld	a1, 696(sp)
	or	a0, a0, a1
	sd	a0, 760(sp)
	ld	a0, 688(sp)
	and	a0, a0, a3
	ld	a1, 680(sp)
	or	a0, a0, a1
	sd	a0, 352(sp)
	ld	a0, 672(sp)
	and	a0, a0, a3
	ld	a1, 664(sp)
	or	a0, a0, a1
	sd	a0, 848(sp)
	ld	a0, 648(sp)
	and	a0, a0, a3
	ld	a1, 640(sp)
	or	a0, a0, a1
	sd	a0, 736(sp)
	ld	a0, 624(sp)
	and	a0, a0, a3
	ld	a1, 616(sp)
	or	a0, a0, a1
	sd	a0, 624(sp)
	ld	a0, 608(sp)
	and	a0, a0, a3
	ld	a1, 600(sp)
	or	a0, a0, a1
	sd	a0, 840(sp)
	ld	a0, 592(sp)
	and	a0, a0, a3
	ld	a1, 584(sp)
	or	a0, a0, a1
	sd	a0, 720(sp)
	ld	a0, 576(sp)
	and	a0, a0, a3
	ld	a1, 568(sp)
	or	a0, a0, a1
	sd	a0, 616(sp)
	ld	a0, 560(sp)
	and	a0, a0, a3
	ld	a1, 552(sp)
	or	a0, a0, a1
	sd	a0, 832(sp)
	ld	a0, 344(sp)
	and	a0, a0, a3
	ld	a1, 336(sp)
	or	a0, a0, a1
	sd	a0, 712(sp)
	ld	a0, 328(sp)
	and	a0, a0, a3
	ld	a1, 320(sp)
	or	a0, a0, a1
	sd	a0, 672(sp)
	ld	a0, 312(sp)
	and	a0, a0, a3
	ld	a1, 304(sp)
	or	a0, a0, a1
	sd	a0, 888(sp)
	ld	a0, 296(sp)
	and	a0, a0, a3
	ld	a1, 288(sp)
	or	a0, a0, a1
	sd	a0, 704(sp)
	ld	a0, 280(sp)
	and	a0, a0, a3
	ld	a1, 272(sp)
	or	a0, a0, a1
	sd	a0, 664(sp)
	ld	a0, 264(sp)
	and	a0, a0, a3
	ld	a1, 256(sp)
	or	a0, a0, a1
	sd	a0, 880(sp)
	ld	a0, 248(sp)
	and	a0, a0, a3
	or	a0, a0, s10
	sd	a0, 696(sp)
	and	a0, s6, a3
	or	a0, a0, s4
	sd	a0, 648(sp)
	and	a0, s5, a3
	or	a0, a0, ra
	sd	a0, 872(sp)
	and	a0, s7, a3
	or	a0, a0, s11
	sd	a0, 688(sp)
	and	a0, s3, a3
	or	a0, a0, s2
	sd	a0, 640(sp)
	and	a0, t6, a3
	or	a0, a0, t0
	sd	a0, 864(sp)
	ld	a0, 768(sp)
	and	t4, a0, a6
	and	t6, a4, a6
	ld	a1, 808(sp)
	mul	a0, t4, a1
	ld	s2, 112(sp)
	mul	a3, t6, s2
	add	a0, a0, a3
	sd	a0, 768(sp)
	ld	a0, 776(sp)
	and	t0, a0, a6
	and	ra, a7, a6
	mul	a0, t0, a1
	mul	a3, ra, s2
	add	a0, a0, a3
	sd	a0, 776(sp)
	ld	a0, 792(sp)
	and	s3, a0, a6
	and	s0, t1, a6
	mul	a0, s3, a1
	mul	a3, s0, s2
	add	a0, a0, a3
	sd	a0, 792(sp)
	ld	a0, 800(sp)
	and	a4, a0, a6
	and	a5, t5, a6
	mul	a0, a4, a1
	mul	a3, a5, s2
	add	a0, a0, a3
	sd	a0, 800(sp)
	ld	a1, 120(sp)
	mul	s9, t4, a1
	ld	t5, 168(sp)
	mul	a0, t6, t5
	add	a0, a0, s9
	sd	a0, 752(sp)
	mul	s10, t0, a1
	mul	a0, ra, t5
	add	a0, a0, s10
	sd	a0, 744(sp)
	mul	t1, s3, a1
	mul	a0, s0, t5
	add	s10, a0, t1
	mul	s6, a4, a1
	mul	a0, a5, t5
	add	t3, a0, s6
	mul	s4, t4, s2
	ld	a6, 152(sp)
	mul	a0, t6, a6
	add	a0, a0, s4
	sd	a0, 728(sp)
	mul	s11, t0, s2
	mul	a0, ra, a6
	add	a0, a0, s11
	sd	a0, 680(sp)
	mul	s7, s3, s2
	mul	a0, s0, a6
	add	s9, a0, s7
	mul	s5, a4, s2
	mul	a0, a5, a6
	add	a0, a0, s5
	sd	a0, 608(sp)
	mul	s4, t4, t5
	ld	a7, 144(sp)
	mul	a0, t6, a7
	add	s4, s4, a0
	mul	a0, t0, t5
	mul	a3, ra, a7
	add	s7, a3, a0
	mul	a2, s3, t5
	mul	a3, s0, a7
	add	t2, a3, a2
	mul	s8, a4, t5
	mul	a2, a5, a7
	add	s8, s8, a2
	mul	a2, a4, a6
	ld	s1, 160(sp)
	mul	a4, a5, s1
	add	a2, a2, a4
	mul	a4, s3, a6
	mul	a5, s0, s1
	add	a4, a4, a5
	mul	a5, t0, a6
	mul	s0, ra, s1
	add	a5, a5, s0
	mul	t4, t4, a6
	mul	s0, t6, s1
	add	a3, s0, t4
	ld	s3, 368(sp)
	mv	s6, a1
	mul	ra, s3, a1
	ld	a0, 768(sp)
	add	a0, a0, ra
	sd	a0, 344(sp)
	ld	t1, 376(sp)
	mul	t0, t1, a1
	ld	s11, 776(sp)
	add	ra, t0, s11
	ld	t4, 384(sp)
	mul	t6, t4, a1
	ld	t0, 792(sp)
	add	s11, t6, t0
	ld	t6, 392(sp)
	mul	s1, t6, a1
	ld	a1, 800(sp)
	add	t0, s1, a1
	mv	s5, s2
	mul	s0, s3, s2
	mv	a1, s3
	ld	s1, 752(sp)
	add	s0, s0, s1
	sd	s0, 336(sp)
	mul	s0, t1, s2
	ld	s1, 744(sp)
	add	s0, s0, s1
	sd	s0, 320(sp)
	mul	s0, t4, s2
	add	s0, s0, s10
	sd	s0, 296(sp)
	mul	s0, t6, s2
	add	s10, s0, t3
	mul	t3, s3, t5
	ld	a0, 728(sp)
	add	s1, t3, a0
	mul	s2, t1, t5
	ld	a0, 680(sp)
	add	a0, a0, s2
	sd	a0, 312(sp)
	mul	s3, t4, t5
	add	s3, s3, s9
	sd	s3, 288(sp)
	mul	s0, t6, t5
	ld	s9, 608(sp)
	add	s9, s9, s0
	mul	s0, a1, a6
	add	s0, s0, s4
	sd	s0, 328(sp)
	mul	s4, t1, a6
	add	s4, s4, s7
	sd	s4, 304(sp)
	mul	a0, t4, a6
	add	a0, a0, t2
	sd	a0, 280(sp)
	mul	a0, t6, a6
	add	a0, a0, s8
	sd	a0, 272(sp)
	mul	a6, t6, a7
	add	a2, a2, a6
	sd	a2, 392(sp)
	mul	t2, t4, a7
	add	a4, a4, t2
	sd	a4, 384(sp)
	mul	a0, t1, a7
	add	a0, a0, a5
	sd	a0, 376(sp)
	mul	a2, a1, a7
	add	a6, a3, a2
	ld	a2, 440(sp)
	slli	a2, a2, 32
	srli	a2, a2, 32
	ld	a4, 856(sp)
	slli	a4, a4, 32
	or	a2, a2, a4
	sd	a2, 584(sp)
	ld	a2, 416(sp)
	slli	a2, a2, 32
	srli	a2, a2, 32
	ld	a4, 848(sp)
	slli	a4, a4, 32
	or	a2, a2, a4
	sd	a2, 592(sp)
	ld	a2, 408(sp)
	slli	a2, a2, 32
	srli	a2, a2, 32
	ld	a4, 840(sp)
	slli	a4, a4, 32
	or	a2, a2, a4
	sd	a2, 600(sp)
	ld	a2, 400(sp)
	slli	a2, a2, 32
	srli	a2, a2, 32
	ld	a4, 832(sp)
	slli	a4, a4, 32
	or	a2, a2, a4
	sd	a2, 608(sp)
	ld	a2, 504(sp)
	slli	a2, a2, 12
	ld	s2, 360(sp)
	srliw	a4, s2, 20
	or	a2, a2, a4
	sd	a2, 552(sp)
	ld	a2, 488(sp)
	slli	a2, a2, 12
	ld	s3, 352(sp)
	srliw	a4, s3, 20
	or	a2, a2, a4
	sd	a2, 560(sp)
	ld	a2, 472(sp)
	slli	a2, a2, 12
	ld	s4, 624(sp)
	srliw	a4, s4, 20
	or	a2, a2, a4
	sd	a2, 568(sp)
	ld	a2, 464(sp)
	slli	a2, a2, 12
	ld	t4, 616(sp)
	srliw	a4, t4, 20
	or	a2, a2, a4
	sd	a2, 576(sp)
	ld	a2, 456(sp)
	slli	a2, a2, 32
	srli	a2, a2, 32
	ld	a4, 888(sp)
	slli	a4, a4, 32
	or	a2, a2, a4
	sd	a2, 800(sp)
	ld	a2, 448(sp)
	slli	a2, a2, 32
	srli	a2, a2, 32
	ld	a4, 880(sp)
	slli	a4, a4, 32
	or	a2, a2, a4
	sd	a2, 792(sp)
	ld	a2, 432(sp)
	slli	a2, a2, 32
	srli	a2, a2, 32
	ld	a4, 872(sp)
	slli	a4, a4, 32
	or	a2, a2, a4
	sd	a2, 776(sp)
	ld	a2, 424(sp)
	slli	a2, a2, 32
	srli	a2, a2, 32
	ld	a4, 864(sp)
	slli	a4, a4, 32
	or	a2, a2, a4
	sd	a2, 768(sp)
	ld	a2, 520(sp)
	slli	a2, a2, 12
	ld	t2, 672(sp)
	srliw	a4, t2, 20
	or	a2, a2, a4
	sd	a2, 752(sp)
	ld	a2, 512(sp)
	slli	a2, a2, 12
	ld	t3, 664(sp)
	srliw	a4, t3, 20
	or	a2, a2, a4
	sd	a2, 744(sp)
	ld	a2, 496(sp)
	slli	a2, a2, 12
	ld	t1, 648(sp)
	srliw	a4, t1, 20
	or	a2, a2, a4
	sd	a2, 728(sp)
	ld	a2, 480(sp)
	slli	a2, a2, 12
	ld	t6, 640(sp)
	srliw	a4, t6, 20
	or	a2, a2, a4
	sd	a2, 680(sp)
	ld	a5, 928(sp)
	ld	a3, 896(sp)
	and	a3, a3, a5
	ld	a7, 136(sp)
	mul	a2, a3, a7
	add	a2, a2, t0
	sd	a2, 520(sp)
	ld	a2, 904(sp)
	and	a2, a2, a5
	mul	a4, a2, a7
	add	a4, a4, s11
	sd	a4, 488(sp)
	ld	a1, 912(sp)
	and	a1, a1, a5
	mul	a4, a1, a7
	add	s11, ra, a4
	ld	a0, 920(sp)
	and	a0, a0, a5
	mul	a4, a0, a7
	ld	ra, 344(sp)
	add	ra, ra, a4
	ld	t0, 808(sp)
	mul	a4, a3, t0
	add	a4, a4, s10
	sd	a4, 512(sp)
	mul	s0, a2, t0
	ld	a4, 296(sp)
	add	s0, s0, a4
	mul	a4, a1, t0
	ld	s10, 320(sp)
	add	s10, s10, a4
	mul	a4, a0, t0
	ld	s7, 336(sp)
	add	s7, s7, a4
	mul	a4, a3, s6
	add	a4, a4, s9
	sd	a4, 504(sp)
	mul	a4, a2, s6
	ld	s8, 288(sp)
	add	s8, s8, a4
	mul	a4, a1, s6
	ld	s9, 312(sp)
	add	s9, s9, a4
	mul	a5, a0, s6
	add	a5, a5, s1
	mul	a4, a3, s5
	ld	s1, 272(sp)
	add	a4, a4, s1
	sd	a4, 496(sp)
	mul	a4, a2, s5
	ld	s1, 280(sp)
	add	a4, a4, s1
	sd	a4, 480(sp)
	mul	a4, a1, s5
	ld	s1, 304(sp)
	add	a4, a4, s1
	sd	a4, 456(sp)
	mul	s1, a0, s5
	ld	a4, 328(sp)
	add	a4, a4, s1
	mul	a0, a0, t5
	add	a0, a0, a6
	sd	a0, 472(sp)
	mul	a0, a1, t5
	ld	a1, 376(sp)
	add	a0, a0, a1
	sd	a0, 464(sp)
	mul	a1, a2, t5
	ld	a0, 384(sp)
	add	a0, a0, a1
	sd	a0, 448(sp)
	mul	a6, a3, t5
	ld	a0, 392(sp)
	add	a6, a6, a0
	ld	a1, 528(sp)
	slli	a1, a1, 32
	slli	a2, s2, 32
	srli	a1, a1, 32
	or	a1, a1, a2
	sd	a1, 392(sp)
	ld	a1, 760(sp)
	slli	a1, a1, 32
	slli	a2, s3, 32
	srli	a1, a1, 32
	or	s3, a1, a2
	ld	a1, 736(sp)
	slli	a1, a1, 32
	slli	a2, s4, 32
	srli	a1, a1, 32
	or	t5, a1, a2
	sd	t5, 624(sp)
	ld	a1, 720(sp)
	slli	a1, a1, 32
	slli	a2, t4, 32
	srli	a1, a1, 32
	or	a3, a1, a2
	sd	a3, 720(sp)
	ld	a1, 712(sp)
	slli	a1, a1, 32
	slli	a2, t2, 32
	srli	a1, a1, 32
	or	a1, a1, a2
	sd	a1, 920(sp)
	ld	a1, 704(sp)
	slli	a1, a1, 32
	slli	a2, t3, 32
	srli	a1, a1, 32
	or	a1, a1, a2
	sd	a1, 912(sp)
	ld	a1, 696(sp)
	slli	a1, a1, 32
	slli	a2, t1, 32
	srli	a1, a1, 32
	or	a1, a1, a2
	sd	a1, 904(sp)
	ld	a1, 688(sp)
	slli	a1, a1, 32
	slli	a2, t6, 32
	srli	a1, a1, 32
	or	a1, a1, a2
	sd	a1, 896(sp)
	ld	s1, 128(sp)
	ld	a2, 656(sp)
	mul	a1, a2, s1
	add	t3, ra, a1
	ld	ra, 632(sp)
	mul	a1, ra, s1
	add	t1, s11, a1
	ld	a0, 544(sp)
	mul	a1, a0, s1
	ld	t2, 488(sp)
	add	t2, t2, a1
	ld	t6, 536(sp)
	mul	s1, t6, s1
	ld	a1, 520(sp)
	add	a1, a1, s1
	mul	s1, a2, a7
	add	s1, s1, s7
	sd	s1, 688(sp)
	mul	s1, ra, a7
	add	s10, s10, s1
	mul	s1, a0, a7
	add	s7, s0, s1
	mul	s0, t6, a7
	mv	s1, t6
	ld	a7, 512(sp)
	add	a7, a7, s0
	mul	s11, a2, t0
	add	a5, a5, s11
	sd	a5, 648(sp)
	mul	s4, ra, t0
	add	s4, s4, s9
	sd	s4, 512(sp)
	mul	a5, a0, t0
	add	a5, a5, s8
	sd	a5, 616(sp)
	mul	a5, t6, t0
	ld	s11, 504(sp)
	add	s11, s11, a5
	mul	s9, a2, s6
	add	a4, a4, s9
	sd	a4, 528(sp)
	mul	s8, ra, s6
	ld	a4, 456(sp)
	add	s8, s8, a4
	sd	s8, 520(sp)
	mul	t6, a0, s6
	ld	s9, 480(sp)
	add	s9, s9, t6
	mul	t0, s1, s6
	ld	s8, 496(sp)
	add	s8, s8, t0
	mul	a4, s1, s5
	add	a4, a4, a6
	sd	a4, 536(sp)
	mul	a4, a0, s5
	ld	a0, 448(sp)
	add	a4, a4, a0
	sd	a4, 488(sp)
	mul	a4, ra, s5
	ld	a0, 464(sp)
	add	a4, a4, a0
	sd	a4, 480(sp)
	mul	s2, a2, s5
	ld	a0, 472(sp)
	add	s2, s2, a0
	sd	s2, 432(sp)
	ld	a4, 928(sp)
	and	ra, a3, a4
	ld	a6, 208(sp)
	mul	a0, ra, a6
	add	a0, a0, a1
	sd	a0, 736(sp)
	and	s2, t5, a4
	mul	a0, s2, a6
	add	a0, a0, t2
	sd	a0, 712(sp)
	and	t4, s3, a4
	mv	s6, s3
	mul	a0, t4, a6
	add	a0, a0, t1
	sd	a0, 672(sp)
	ld	s5, 392(sp)
	and	t1, s5, a4
	mul	a0, t1, a6
	add	a0, a0, t3
	sd	a0, 544(sp)
	ld	a0, 552(sp)
	and	s4, a0, a4
	ld	a0, 584(sp)
	slli	a0, a0, 24
	srli	s3, a0, 38
	ld	s0, 192(sp)
	mul	a0, s4, s0
	ld	t3, 200(sp)
	mul	a1, s3, t3
	add	a0, a0, a1
	sd	a0, 760(sp)
	ld	a0, 560(sp)
	and	t6, a0, a4
	ld	a0, 592(sp)
	slli	a0, a0, 24
	srli	t5, a0, 38
	mul	a0, t6, s0
	mul	a1, t5, t3
	add	a0, a0, a1
	sd	a0, 704(sp)
	ld	a0, 568(sp)
	and	t2, a0, a4
	ld	a3, 600(sp)
	slli	a3, a3, 24
	srli	t0, a3, 38
	mul	a0, t2, s0
	mul	a1, t0, t3
	add	a0, a0, a1
	sd	a0, 600(sp)
	ld	a5, 576(sp)
	and	a5, a5, a4
	ld	a0, 608(sp)
	slli	a0, a0, 24
	srli	a0, a0, 38
	mul	a1, a5, s0
	mul	s1, a0, t3
	add	a1, a1, s1
	sd	a1, 464(sp)
	ld	a2, 232(sp)
	mul	a1, ra, a2
	add	a1, a1, a7
	sd	a1, 696(sp)
	mul	a1, s2, a2
	add	a1, a1, s7
	sd	a1, 664(sp)
	mul	a1, t4, a2
	add	a1, a1, s10
	sd	a1, 632(sp)
	mul	a1, t1, a2
	ld	a3, 688(sp)
	add	a1, a1, a3
	sd	a1, 568(sp)
	ld	a4, 184(sp)
	mul	a1, s4, a4
	mul	s1, s3, s0
	add	a1, a1, s1
	sd	a1, 688(sp)
	mul	a1, t6, a4
	mul	s1, t5, s0
	add	a1, a1, s1
	sd	a1, 640(sp)
	mul	a1, t2, a4
	mul	s1, t0, s0
	add	a1, a1, s1
	sd	a1, 576(sp)
	mul	a1, a5, a4
	mul	s1, a0, s0
	add	a1, a1, s1
	sd	a1, 472(sp)
	ld	a7, 216(sp)
	mul	a1, ra, a7
	add	a1, a1, s11
	sd	a1, 656(sp)
	mul	a1, s2, a7
	ld	a3, 616(sp)
	add	a1, a1, a3
	sd	a1, 616(sp)
	mul	a1, t4, a7
	ld	a3, 512(sp)
	add	a1, a1, a3
	sd	a1, 560(sp)
	mul	a1, t1, a7
	ld	a3, 648(sp)
	add	a1, a1, a3
	sd	a1, 504(sp)
	mul	a1, s4, a6
	mul	s1, s3, a4
	add	a1, a1, s1
	sd	a1, 648(sp)
	mul	a1, t6, a6
	mul	s1, t5, a4
	add	a1, a1, s1
	sd	a1, 584(sp)
	mul	a1, t2, a6
	mul	s1, t0, a4
	add	a1, a1, s1
	sd	a1, 512(sp)
	mul	a1, a5, a6
	mul	s1, a0, a4
	add	a1, a1, s1
	sd	a1, 440(sp)
	ld	s1, 816(sp)
	mul	a1, ra, s1
	add	a1, a1, s8
	sd	a1, 608(sp)
	mul	a1, s2, s1
	add	a1, a1, s9
	sd	a1, 552(sp)
	mul	a1, t4, s1
	ld	a3, 520(sp)
	add	a1, a1, a3
	sd	a1, 496(sp)
	mul	a1, t1, s1
	ld	a3, 528(sp)
	add	a1, a1, a3
	sd	a1, 448(sp)
	mul	a1, s4, a2
	mul	s1, s3, a6
	add	a1, a1, s1
	sd	a1, 592(sp)
	mul	a1, t6, a2
	mul	s1, t5, a6
	add	a1, a1, s1
	sd	a1, 520(sp)
	mul	a1, t2, a2
	mul	s1, t0, a6
	add	a1, a1, s1
	sd	a1, 456(sp)
	mul	a1, a5, a2
	mul	s1, a0, a6
	add	a1, a1, s1
	sd	a1, 416(sp)
	ld	s1, 224(sp)
	mul	a1, t1, s1
	ld	a3, 432(sp)
	add	a1, a1, a3
	sd	a1, 528(sp)
	mul	a1, t4, s1
	ld	a3, 480(sp)
	add	a1, a1, a3
	sd	a1, 480(sp)
	mul	a1, s2, s1
	ld	a3, 488(sp)
	add	a1, a1, a3
	sd	a1, 488(sp)
	mul	a1, ra, s1
	ld	s1, 536(sp)
	add	a1, a1, s1
	sd	a1, 424(sp)
	mul	a1, a5, a7
	mul	a0, a0, a2
	add	a0, a0, a1
	sd	a0, 536(sp)
	mul	a0, t2, a7
	mul	a1, t0, a2
	add	a0, a0, a1
	sd	a0, 432(sp)
	mul	ra, t6, a7
	mul	a0, t5, a2
	add	a0, a0, ra
	sd	a0, 408(sp)
	mul	s10, s4, a7
	mul	a0, s3, a2
	add	a0, a0, s10
	sd	a0, 400(sp)
	slli	a1, s5, 12
	srli	t1, a1, 38
	mul	a0, t1, a4
	ld	a1, 544(sp)
	add	a0, a0, a1
	sd	a0, 544(sp)
	slli	a0, s6, 12
	srli	t2, a0, 38
	mul	s11, t2, a4
	ld	a0, 672(sp)
	add	a0, a0, s11
	sd	a0, 672(sp)
	ld	a5, 624(sp)
	slli	a5, a5, 12
	srli	a5, a5, 38
	mul	s9, a5, a4
	ld	a0, 712(sp)
	add	a0, a0, s9
	sd	a0, 712(sp)
	ld	a3, 720(sp)
	slli	a3, a3, 12
	srli	a3, a3, 38
	mul	s7, a3, a4
	ld	a0, 736(sp)
	add	a0, a0, s7
	sd	a0, 736(sp)
	ld	a0, 832(sp)
	srliw	a0, a0, 8
	lui	t0, 4096
	or	t4, a0, t0
	ld	s1, 176(sp)
	mul	s6, t4, s1
	ld	a0, 464(sp)
	add	a0, a0, s6
	sd	a0, 832(sp)
	ld	a0, 840(sp)
	srliw	a0, a0, 8
	or	s6, a0, t0
	mul	s5, s6, s1
	ld	a0, 600(sp)
	add	a0, a0, s5
	sd	a0, 840(sp)
	ld	a0, 848(sp)
	srliw	a0, a0, 8
	or	s5, a0, t0
	mul	s4, s5, s1
	ld	a0, 704(sp)
	add	a0, a0, s4
	sd	a0, 848(sp)
	ld	a0, 856(sp)
	srliw	a0, a0, 8
	or	a0, a0, t0
	mul	s8, a0, s1
	ld	s1, 760(sp)
	add	s1, s1, s8
	sd	s1, 760(sp)
	mv	t0, t1
	mul	s3, t1, a6
	ld	a1, 568(sp)
	add	a1, a1, s3
	sd	a1, 856(sp)
	mv	s3, t2
	mul	s2, t2, a6
	ld	a1, 632(sp)
	add	a1, a1, s2
	sd	a1, 720(sp)
	mul	s1, a5, a6
	ld	a1, 664(sp)
	add	a1, a1, s1
	sd	a1, 704(sp)
	mul	t6, a3, a6
	ld	s1, 696(sp)
	add	t6, t6, s1
	sd	t6, 696(sp)
	mv	t6, t4
	mul	t5, t4, t3
	ld	a1, 472(sp)
	add	a1, a1, t5
	sd	a1, 664(sp)
	mul	t4, s6, t3
	ld	a1, 576(sp)
	add	a1, a1, t4
	sd	a1, 632(sp)
	mul	t2, s5, t3
	ld	a1, 640(sp)
	add	a1, a1, t2
	sd	a1, 640(sp)
	mul	t1, a0, t3
	ld	s1, 688(sp)
	add	t1, t1, s1
	sd	t1, 624(sp)
	mul	t3, t0, a2
	mv	t1, t0
	ld	a1, 504(sp)
	add	a1, a1, t3
	sd	a1, 688(sp)
	mul	t0, s3, a2
	mv	t2, s3
	ld	a1, 560(sp)
	add	a1, a1, t0
	sd	a1, 600(sp)
	mul	ra, a5, a2
	ld	a1, 616(sp)
	add	a1, a1, ra
	sd	a1, 616(sp)
	mul	s11, a3, a2
	ld	a1, 656(sp)
	add	a1, a1, s11
	sd	a1, 656(sp)
	mul	s10, t6, s0
	mv	t3, t6
	ld	a1, 440(sp)
	add	a1, a1, s10
	sd	a1, 576(sp)
	mv	a2, s6
	mul	s9, s6, s0
	ld	ra, 512(sp)
	add	ra, ra, s9
	mv	t0, s5
	mul	s7, s5, s0
	ld	s11, 584(sp)
	add	s11, s11, s7
	mul	s6, a0, s0
	ld	s7, 648(sp)
	add	s7, s7, s6
	mul	s5, t1, a7
	ld	a1, 448(sp)
	add	a1, a1, s5
	sd	a1, 648(sp)
	mul	s4, s3, a7
	ld	s6, 496(sp)
	add	s6, s6, s4
	mul	s3, a5, a7
	ld	s5, 552(sp)
	add	s5, s5, s3
	mul	s8, a3, a7
	ld	s4, 608(sp)
	add	s4, s4, s8
	mul	s2, t6, a4
	ld	a1, 416(sp)
	add	s2, s2, a1
	mul	s1, a2, a4
	mv	s0, a2
	ld	a1, 456(sp)
	add	a7, a1, s1
	mul	t6, t0, a4
	mv	s1, t0
	ld	a1, 520(sp)
	add	t6, t6, a1
	mul	t5, a0, a4
	ld	a1, 592(sp)
	add	t5, t5, a1
	ld	a2, 816(sp)
	mul	a3, a3, a2
	ld	t4, 424(sp)
	add	t4, t4, a3
	mul	a5, a5, a2
	ld	a1, 488(sp)
	add	a5, a5, a1
	mul	a3, t2, a2
	ld	t0, 480(sp)
	add	t0, t0, a3
	mul	a1, t1, a2
	ld	a2, 528(sp)
	add	a1, a1, a2
	mul	a0, a0, a6
	ld	a2, 400(sp)
	add	a0, a0, a2
	mul	a2, s1, a6
	ld	a3, 408(sp)
	add	a2, a2, a3
	mul	a4, s0, a6
	ld	a3, 432(sp)
	add	a4, a4, a3
	mul	s0, t3, a6
	ld	a3, 536(sp)
	add	s0, s0, a3
	ld	a3, 736(sp)
	ld	s1, 832(sp)
	add	a3, a3, s1
	ld	s9, 712(sp)
	ld	s1, 840(sp)
	add	s9, s9, s1
	ld	t2, 672(sp)
	ld	s1, 848(sp)
	add	t2, t2, s1
	ld	t3, 544(sp)
	ld	s1, 760(sp)
	add	t3, t3, s1
	ld	a6, 696(sp)
	ld	s1, 664(sp)
	add	a6, a6, s1
	ld	t1, 704(sp)
	ld	s1, 632(sp)
	add	t1, t1, s1
	ld	s8, 720(sp)
	ld	s1, 640(sp)
	add	s8, s8, s1
	ld	s10, 856(sp)
	ld	s1, 624(sp)
	add	s10, s10, s1
	ld	s3, 656(sp)
	ld	s1, 576(sp)
	add	s3, s3, s1
	ld	s1, 616(sp)
	add	ra, ra, s1
	ld	s1, 600(sp)
	add	s11, s11, s1
	ld	s1, 688(sp)
	add	s7, s7, s1
	add	s2, s2, s4
	add	s5, s5, a7
	add	t6, t6, s6
	ld	s1, 648(sp)
	add	s1, s1, t5
	add	a1, a1, a0
	add	t0, t0, a2
	add	a7, a5, a4
	add	s4, t4, s0
	ld	a5, 928(sp)
	ld	s0, 920(sp)
	and	a0, s0, a5
	add	t3, t3, a0
	ld	a4, 912(sp)
	and	a0, a4, a5
	add	t2, t2, a0
	ld	a2, 904(sp)
	and	a0, a2, a5
	add	s9, s9, a0
	ld	t4, 896(sp)
	and	a0, t4, a5
	add	a3, a3, a0
	slli	a0, s0, 12
	srli	a0, a0, 38
	add	s10, s10, a0
	slli	a0, a4, 12
	srli	a0, a0, 38
	add	s8, s8, a0
	slli	a0, a2, 12
	srli	a0, a0, 38
	add	t1, t1, a0
	slli	a0, t4, 12
	srli	a0, a0, 38
	add	a6, a6, a0
	ld	a0, 752(sp)
	and	a0, a0, a5
	add	a0, a0, s7
	sd	a0, 912(sp)
	ld	a0, 744(sp)
	and	s6, a0, a5
	add	s6, s6, s11
	ld	a0, 728(sp)
	and	t5, a0, a5
	add	t5, t5, ra
	ld	a0, 680(sp)
	and	t4, a0, a5
	add	t4, t4, s3
	ld	a0, 800(sp)
	slli	a0, a0, 24
	srli	a0, a0, 38
	add	s3, s1, a0
	ld	a0, 792(sp)
	slli	a0, a0, 24
	srli	a0, a0, 38
	add	s11, t6, a0
	ld	a0, 776(sp)
	slli	a0, a0, 24
	srli	a0, a0, 38
	add	s5, s5, a0
	ld	a0, 768(sp)
	slli	a0, a0, 24
	srli	a0, a0, 38
	add	a0, a0, s2
	ld	a5, 888(sp)
	srliw	a5, a5, 8
	lui	a2, 4096
	add	a5, a5, a2
	add	a1, a1, a5
	sd	a1, 920(sp)
	ld	a1, 880(sp)
	srliw	a1, a1, 8
	add	a1, a1, a2
	add	s7, t0, a1
	ld	a1, 872(sp)
	srliw	a1, a1, 8
	add	a1, a1, a2
	add	t6, a7, a1
	ld	a4, 824(sp)
	addi	a4, a4, -128
	ld	a1, 864(sp)
	srliw	a1, a1, 8
	add	a1, a1, a2
	add	s4, s4, a1
	li	a2, 127
	ld	a1, 784(sp)
	addi	a1, a1, 128
	sd	a4, 824(sp)
	bgeu	a2, a4, .Lnoise_BB6_2
	j	.Lnoise_BB6_1
.Lnoise_BB6_2:
	srli	a2, a3, 26
	add	ra, a2, a6
	srli	a5, s9, 26
	add	t1, t1, a5
	srli	a4, t2, 26
	add	s8, s8, a4
	srli	t0, t3, 26
	add	t0, t0, s10
	srli	a6, s3, 26
	ld	a2, 920(sp)
	add	a6, a6, a2
	srli	a4, s11, 26
	add	s7, s7, a4
	srli	a7, s5, 26
	add	a7, a7, t6
	srli	a4, a0, 26
	add	s4, s4, a4
	srli	t6, ra, 26
	add	t6, t6, t4
	srli	a4, t1, 26
	add	t5, t5, a4
	srli	a4, s8, 26
	add	s6, s6, a4
	srli	s2, t0, 26
	ld	a2, 912(sp)
	add	s2, s2, a2
	lui	a4, 16384
	addi	a4, a4, -1
	and	a3, a3, a4
	srli	s1, s4, 26
	add	a3, a3, s1
	slli	s1, s1, 2
	add	s10, a3, s1
	and	a3, s9, a4
	srli	s1, a7, 26
	add	a3, a3, s1
	slli	s0, s1, 2
	add	s9, a3, s0
	and	a3, t2, a4
	srli	s1, s7, 26
	add	a3, a3, s1
	slli	s1, s1, 2
	add	t4, a3, s1
	and	a3, t3, a4
	srli	a5, a6, 26
	add	a3, a3, a5
	slli	a5, a5, 2
	add	t3, a3, a5
	and	a0, a0, a4
	srli	a5, t6, 26
	add	a0, a0, a5
	and	a5, s5, a4
	srli	a2, t5, 26
	add	a2, a2, a5
	and	a5, s11, a4
	srli	s0, s6, 26
	add	s0, s0, a5
	and	a5, s3, a4
	srli	s1, s2, 26
	add	s1, s1, a5
	and	s11, ra, a4
	srli	a5, s10, 26
	add	a5, a5, s11
	sd	a5, 912(sp)
	and	t1, t1, a4
	srli	a5, s9, 26
	add	a5, a5, t1
	sd	a5, 880(sp)
	and	s5, s8, a4
	srli	a5, t4, 26
	add	t1, a5, s5
	and	a5, t0, a4
	srli	a3, t3, 26
	add	ra, a3, a5
	and	t0, s4, a4
	srli	a3, a0, 26
	add	a3, a3, t0
	sd	a3, 904(sp)
	and	s8, a7, a4
	srli	a3, a2, 26
	add	a3, a3, s8
	sd	a3, 872(sp)
	and	s4, s7, a4
	srli	a3, s0, 26
	add	t0, a3, s4
	and	s7, a6, a4
	and	a3, t6, a4
	sd	a3, 888(sp)
	and	t5, t5, a4
	and	s3, s6, a4
	and	a5, s2, a4
	and	a3, s10, a4
	sd	a3, 896(sp)
	and	t2, s9, a4
	and	t4, t4, a4
	and	a3, t3, a4
	and	a0, a0, a4
	sd	a0, 920(sp)
	and	t6, a2, a4
	and	t3, s0, a4
	and	a4, a4, s1
	srli	a0, s1, 26
	add	a0, a0, s7
	ld	s2, 40(sp)
	mul	a2, a5, s2
	ld	a7, 64(sp)
	mul	s1, a7, a3
	add	s6, s1, a2
	ld	s4, 56(sp)
	mul	s1, s4, a5
	ld	s5, 80(sp)
	mul	s0, a3, s5
	add	s7, s0, s1
	mul	s1, a7, a5
	ld	s8, 72(sp)
	mul	a2, a3, s8
	add	s9, a2, s1
	mul	s1, a5, s5
	ld	s11, 88(sp)
	mul	s0, a3, s11
	add	s10, s0, s1
	mul	a5, a5, s8
	ld	a6, 48(sp)
	mul	a3, a3, a6
	add	a3, a3, a5
	mul	a5, s4, ra
	add	a5, a5, s6
	mul	s1, a7, ra
	add	s1, s1, s7
	mul	a2, ra, s5
	add	s9, s9, a2
	mul	s0, ra, s8
	add	s0, s0, s10
	mul	a2, ra, s11
	add	s6, a2, a3
	ld	s7, 32(sp)
	mul	a3, a4, s7
	add	a3, a3, a5
	mul	a5, a4, s2
	add	a5, a5, s1
	mul	s1, s4, a4
	add	s1, s1, s9
	mul	a2, a7, a4
	add	a2, a2, s0
	mul	a4, a4, s5
	add	a4, a4, s6
	ld	s9, 24(sp)
	mul	s0, a0, s9
	add	a3, a3, s0
	mul	s0, a0, s7
	add	a5, a5, s0
	mul	s0, a0, s2
	add	s0, s0, s1
	mul	s1, s4, a0
	add	a2, a2, s1
	mul	a0, a7, a0
	add	a0, a0, a4
	srli	a4, a3, 26
	add	a4, a4, a5
	srli	a5, a2, 26
	add	a0, a0, a5
	srli	a5, a4, 26
	add	a5, a5, s0
	ld	s6, 928(sp)
	and	a4, a4, s6
	add	a4, a4, t1
	and	s0, a0, s6
	add	t0, t0, s0
	and	a3, a3, s6
	srli	a0, a0, 26
	add	a3, a3, a0
	slli	a0, a0, 2
	add	a0, a0, a3
	and	a2, a2, s6
	srli	a3, a5, 26
	add	a2, a2, a3
	and	a3, a5, s6
	add	s3, s3, a3
	and	a3, a0, s6
	srli	a0, a0, 26
	add	a3, a3, t4
	and	s0, a2, s6
	srli	a2, a2, 26
	add	t4, a4, a0
	mul	a4, s3, s2
	add	s0, s0, t3
	mul	a5, s3, s5
	add	a2, a2, t0
	mul	s1, a7, a3
	add	t3, s1, a4
	mul	s1, a3, s11
	add	a5, a5, s1
	mul	s1, s4, s3
	mul	a0, a3, s5
	add	a0, a0, s1
	mul	s1, s3, s8
	mul	a4, a3, a6
	add	a4, a4, s1
	mul	s1, a7, s3
	mul	a3, a3, s8
	add	a3, a3, s1
	mul	s1, s0, s7
	add	t3, t3, s1
	mul	s1, a7, s0
	add	a5, a5, s1
	mul	s1, s0, s2
	add	a0, a0, s1
	mul	s1, s0, s5
	add	a4, a4, s1
	slli	t4, t4, 32
	srli	s1, t4, 32
	mul	s0, s4, s0
	add	a3, a3, s0
	mul	s0, s4, s1
	add	t3, t3, s0
	mul	s0, s1, s8
	add	a5, a5, s0
	mul	s0, a7, s1
	add	a0, a0, s0
	mul	s0, s1, s11
	add	a4, a4, s0
	mul	s1, s1, s5
	add	a3, a3, s1
	mul	s1, a2, s9
	add	t3, t3, s1
	mul	s1, s4, a2
	add	a5, a5, s1
	mul	s1, a2, s7
	add	a0, a0, s1
	mul	s1, a7, a2
	add	a4, a4, s1
	mul	a2, a2, s2
	add	a2, a2, a3
	srli	a3, t3, 26
	add	a0, a0, a3
	srli	a3, a5, 26
	add	a3, a3, a4
	srli	a4, a0, 26
	add	a2, a2, a4
	and	a4, t3, s6
	and	a5, a5, s6
	and	a0, a0, s6
	ld	s1, 880(sp)
	add	a0, a0, s1
	and	s0, a3, s6
	srli	a3, a3, 26
	add	a4, a4, a3
	slli	a3, a3, 2
	ld	s1, 872(sp)
	add	s1, s1, s0
	and	s0, a2, s6
	srli	a2, a2, 26
	add	a3, a3, a4
	and	a4, a3, s6
	srli	a3, a3, 26
	add	a2, a2, a5
	add	t5, t5, s0
	and	a5, a2, s6
	srli	a2, a2, 26
	add	t2, t2, a4
	add	t1, a0, a3
	mul	a3, t5, s2
	mul	a4, s4, t5
	mul	s0, t5, s5
	add	a5, a5, t6
	mul	a0, t5, s8
	add	a2, a2, s1
	mul	s1, a7, t2
	add	t3, s1, a3
	mul	s1, t2, s11
	add	s0, s0, s1
	mul	s1, t2, s5
	add	a4, a4, s1
	mul	s1, t2, a6
	mv	s10, a6
	add	a0, a0, s1
	mul	s1, a7, t5
	mul	a3, t2, s8
	add	a3, a3, s1
	mul	s1, a5, s7
	add	t3, t3, s1
	mul	s1, a7, a5
	add	s0, s0, s1
	mul	s1, a5, s2
	add	a4, a4, s1
	mul	s1, a5, s5
	add	t2, a0, s1
	slli	t1, t1, 32
	srli	s1, t1, 32
	mul	a5, s4, a5
	add	a3, a3, a5
	mul	a5, s4, s1
	add	a5, a5, t3
	mul	a0, s1, s8
	add	a0, a0, s0
	mul	s0, a7, s1
	add	a4, a4, s0
	mul	s0, s1, s11
	add	t2, t2, s0
	mul	s1, s1, s5
	add	a3, a3, s1
	mul	s1, a2, s9
	add	a5, a5, s1
	mul	s1, s4, a2
	add	a0, a0, s1
	mul	s1, a2, s7
	add	a4, a4, s1
	mul	s1, a7, a2
	add	t2, t2, s1
	mul	a2, a2, s2
	add	a2, a2, a3
	srli	a3, a5, 26
	add	s1, a4, a3
	srli	a4, a0, 26
	add	a4, a4, t2
	srli	a3, s1, 26
	add	a2, a2, a3
	and	a3, a5, s6
	and	a0, a0, s6
	and	a5, s1, s6
	ld	s1, 912(sp)
	add	a5, a5, s1
	and	s1, a4, s6
	srli	a4, a4, 26
	add	a3, a3, a4
	slli	a4, a4, 2
	ld	t0, 904(sp)
	add	t0, t0, s1
	and	s1, a2, s6
	srli	a2, a2, 26
	add	a3, a3, a4
	and	a4, a3, s6
	srli	a3, a3, 26
	add	a0, a0, a2
	ld	t6, 888(sp)
	add	t6, t6, s1
	and	a2, a0, s6
	srli	t1, a0, 26
	ld	a0, 896(sp)
	add	a4, a4, a0
	add	t2, a5, a3
	mul	a5, t6, s2
	mul	t3, s4, t6
	mul	s3, a7, t6
	ld	a0, 920(sp)
	add	a2, a2, a0
	mul	s0, t6, s5
	mul	a0, t6, s8
	add	t0, t0, t1
	mul	a3, a7, a4
	slli	t2, t2, 32
	add	a6, a3, a5
	mul	a5, a4, s11
	add	t4, a5, s0
	mul	s0, a4, s5
	mul	s1, a4, s10
	mul	a4, a4, s8
	srli	a3, t2, 32
	add	t3, t3, s0
	mul	s0, a2, s7
	mul	t1, t0, s9
	add	t5, s1, a0
	mul	t6, a2, s2
	mul	t2, t0, s7
	add	s3, s3, a4
	mul	a5, s4, a2
	mul	s7, t0, s2
	add	a6, a6, s0
	mul	s0, a7, a2
	add	t4, t4, s0
	mul	s2, s4, t0
	mul	a2, a2, s5
	mul	t0, a7, t0
	mul	s1, s4, a3
	mul	a0, a7, a3
	mul	s0, a3, s5
	mul	a4, a3, s8
	mul	a3, a3, s11
	add	t3, t3, t6
	add	a2, a2, t5
	add	a5, a5, s3
	add	a6, a6, s1
	add	a4, a4, t4
	add	a0, a0, t3
	add	a2, a2, a3
	add	a5, a5, s0
	add	a6, a6, t1
	add	a4, a4, s2
	add	a0, a0, t2
	add	a2, a2, t0
	add	a5, a5, s7
	and	a3, a6, s6
	srli	s1, a6, 26
	add	a0, a0, s1
	and	s1, a4, s6
	srli	a4, a4, 26
	add	a2, a2, a4
	and	a4, a0, s6
	srli	a0, a0, 26
	add	a0, a0, a5
	srli	a5, a2, 26
	add	a3, a3, a5
	slli	a5, a5, 2
	add	a3, a3, a5
	and	a5, a0, s6
	srli	a0, a0, 26
	add	a0, a0, s1
	and	s1, a3, s6
	srli	a3, a3, 26
	add	a3, a3, a4
	slli	a4, a5, 52
	or	a4, a4, s1
	and	a2, a2, s6
	srli	a5, a5, 12
	and	s1, a0, s6
	srli	a0, a0, 26
	add	a0, a0, a2
	srli	a2, a3, 38
	slli	a3, a3, 26
	slli	s1, s1, 14
	add	a3, a3, a4
	add	a2, a2, a5
	slli	a5, a0, 40
	srli	a0, a0, 24
	sltu	a4, a3, a4
	add	a2, a2, s1
	not	s1, a5
	add	a2, a2, a4
	sltu	a4, s1, a2
	add	a5, a5, a2
	add	a0, a0, a4
	addi	a2, a5, 1
	srli	a4, a0, 2
	andi	s1, a0, 12
	seqz	s0, a2
	andi	a6, a0, 3
	add	a2, s1, a4
	not	a0, a2
	add	t5, a3, a2
	sltu	a0, a0, a3
	sltu	a3, t5, a3
	and	s0, s0, a0
	srli	a4, t5, 40
	add	t1, a5, a3
	srli	a3, t5, 32
	ld	s8, 96(sp)
	sb	a3, 4(s8)
	srli	a3, t5, 48
	sb	a4, 5(s8)
	srli	a4, t5, 56
	sb	a3, 6(s8)
	srli	s1, t5, 16
	sb	a4, 7(s8)
	srli	a3, t5, 8
	sb	a3, 1(s8)
	add	t0, a6, s0
	srli	a4, t1, 40
	srli	a0, t1, 32
	sb	a0, 12(s8)
	srli	a0, t1, 48
	sb	a4, 13(s8)
	srli	a4, t1, 56
	sb	a0, 14(s8)
	srli	a0, t1, 16
	sb	a4, 15(s8)
	srli	a4, t1, 8
	sb	a4, 9(s8)
	srli	a4, t1, 24
	sb	a0, 10(s8)
	srli	a0, t5, 24
	sb	s1, 2(s8)
	sb	a0, 3(s8)
	sb	t5, 0(s8)
	sb	zero, 20(s8)
	sb	zero, 21(s8)
	sb	zero, 22(s8)
	sb	zero, 23(s8)
	sb	zero, 28(s8)
	sb	zero, 29(s8)
	sb	zero, 30(s8)
	sb	zero, 31(s8)
	sb	t1, 8(s8)
	sb	a4, 11(s8)
	li	a0, 16
	sb	t0, 16(s8)
	sb	zero, 17(s8)
	sb	zero, 18(s8)
	sb	zero, 19(s8)
	sb	zero, 24(s8)
	sb	zero, 25(s8)
	sb	zero, 26(s8)
	sb	zero, 27(s8)
	ld	s11, 824(sp)
	bgeu	s11, a0, .Lnoise_BB6_6
.Lnoise_BB6_3:
	srli	a0, t5, 56
	srli	a2, t5, 48
	srli	a3, t5, 40
	srli	a4, t5, 32
	srli	a5, t5, 24
	srli	s1, t5, 16
	srli	s0, t5, 8
	srli	a6, t1, 56
	srli	a7, t1, 48
	srli	t2, t1, 40
	srli	t3, t1, 32
	srli	t4, t1, 24
	sb	a4, 4(s8)
	sb	a3, 5(s8)
	sb	a2, 6(s8)
	sb	a0, 7(s8)
	srli	a0, t1, 16
	sb	t5, 0(s8)
	sb	s0, 1(s8)
	sb	s1, 2(s8)
	sb	a5, 3(s8)
	srli	a2, t1, 8
	sb	zero, 20(s8)
	sb	zero, 21(s8)
	sb	zero, 22(s8)
	sb	zero, 23(s8)
	sb	t0, 16(s8)
	sb	zero, 17(s8)
	sb	zero, 18(s8)
	sb	zero, 19(s8)
	sb	zero, 28(s8)
	sb	zero, 29(s8)
	sb	zero, 30(s8)
	sb	zero, 31(s8)
	sb	t3, 12(s8)
	sb	t2, 13(s8)
	sb	a7, 14(s8)
	sb	a6, 15(s8)
	ld	s0, 80(s8)
	sb	t1, 8(s8)
	sb	a2, 9(s8)
	sb	a0, 10(s8)
	sb	t4, 11(s8)
	add	a0, s8, s0
	addi	a0, a0, 64
	sub	a2, a0, a1
	sb	zero, 24(s8)
	sb	zero, 25(s8)
	sb	zero, 26(s8)
	sb	zero, 27(s8)
	bgeu	a2, s11, .Lnoise_BB6_11
	add	a2, a1, s11
.Lnoise_BB6_5:
	lbu	a3, 0(a1)
	addi	a1, a1, 1
	sb	a3, 0(a0)
	addi	a0, a0, 1
	bne	a1, a2, .Lnoise_BB6_5
	j	.Lnoise_BB6_12
.Lnoise_BB6_6:
	li	a6, -1
	ld	s9, 16(sp)
	srli	a0, s9, 2
	add	a7, a0, s9
	ld	s10, 104(sp)
	j	.Lnoise_BB6_9
.Lnoise_BB6_7:
	sltu	a4, a4, t1
.Lnoise_BB6_8:
	addi	a1, a1, 16
	addi	s11, s11, -16
	add	t1, t1, s1
	add	s0, s0, t5
	add	a4, a4, t0
	sltu	a0, s0, t5
	addi	a4, a4, 1
	and	a2, s0, a6
	add	a0, a0, t1
	mul	a3, a2, s10
	mulhu	a5, a2, s10
	mul	s1, a2, s9
	mulhu	a2, a2, s9
	mulhu	s0, a0, a7
	add	a5, a5, s0
	mulhu	s0, a0, s10
	add	a2, a2, s0
	mul	s0, a0, a7
	add	s0, s0, a3
	sltu	a3, s0, a3
	add	a3, a3, a5
	mul	a5, a4, a7
	mul	a4, a4, s10
	mul	a0, a0, s10
	add	a0, a0, s1
	sltu	s1, a0, s1
	add	a5, a5, a0
	and	s0, s0, a6
	add	a2, a2, s1
	sltu	a0, a5, a0
	add	a0, a0, a2
	add	a3, a3, a5
	sltu	a2, a3, a5
	add	a0, a0, a4
	addi	a4, a3, 1
	add	a0, a0, a2
	seqz	a2, a4
	srli	a4, a0, 2
	andi	a5, a0, -4
	andi	a0, a0, 3
	add	a4, a4, a5
	not	a5, a4
	add	t5, s0, a4
	sltu	a4, a5, s0
	sltu	t1, t5, s0
	and	a2, a2, a4
	add	t1, t1, a3
	li	a3, 15
	add	t0, a0, a2
	bgeu	a3, s11, .Lnoise_BB6_3
.Lnoise_BB6_9:
	lbu	t2, 0(a1)
	lbu	t4, 1(a1)
	lbu	s2, 2(a1)
	lbu	t6, 3(a1)
	lbu	t3, 4(a1)
	lbu	s5, 5(a1)
	lbu	s1, 6(a1)
	lbu	s6, 7(a1)
	lbu	s3, 12(a1)
	lbu	a2, 13(a1)
	lbu	a0, 14(a1)
	lbu	s0, 15(a1)
	lbu	s4, 8(a1)
	lbu	a4, 9(a1)
	lbu	a5, 10(a1)
	lbu	a3, 11(a1)
	slli	a0, a0, 16
	slli	s0, s0, 24
	or	s7, s0, a0
	lui	s0, 16
	addi	s0, s0, -1
	slli	a2, a2, 8
	slli	a5, a5, 16
	slli	a3, a3, 24
	slli	a4, a4, 8
	slli	s1, s1, 16
	slli	s6, s6, 24
	slli	s5, s5, 8
	slli	s2, s2, 16
	slli	t6, t6, 24
	slli	t4, t4, 8
	or	a2, s3, a2
	or	s3, a3, a5
	or	a4, s4, a4
	or	a5, s6, s1
	or	s1, t3, s5
	or	a0, t6, s2
	or	a3, t2, t4
	and	a2, a2, s0
	and	a4, a4, s0
	and	s1, s1, s0
	and	a3, a3, s0
	or	a2, a2, s7
	or	a4, a4, s3
	or	a5, a5, s1
	or	a0, a0, a3
	slli	a2, a2, 32
	slli	a4, a4, 32
	slli	a5, a5, 32
	slli	a0, a0, 32
	srli	a4, a4, 32
	or	s1, a4, a2
	srli	a0, a0, 32
	not	a4, s1
	or	s0, a0, a5
	bne	t1, a4, .Lnoise_BB6_7
	not	a0, s0
	sltu	a4, a0, t5
	j	.Lnoise_BB6_8
.Lnoise_BB6_11:
	mv	a2, s11
	call	memmove
.Lnoise_BB6_12:
	add	s0, s0, s11
	sd	s0, 80(s8)
	ld	ra, 1032(sp)
	ld	s0, 1024(sp)
	ld	s1, 1016(sp)
	ld	s2, 1008(sp)
	ld	s3, 1000(sp)
	ld	s4, 992(sp)
	ld	s5, 984(sp)
	ld	s6, 976(sp)
	ld	s7, 968(sp)
	ld	s8, 960(sp)
	ld	s9, 952(sp)
	ld	s10, 944(sp)
	ld	s11, 936(sp)
	.cfi_restore ra
	.cfi_restore s0
	.cfi_restore s1
	.cfi_restore s2
	.cfi_restore s3
	.cfi_restore s4
	.cfi_restore s5
	.cfi_restore s6
	.cfi_restore s7
	.cfi_restore s8
	.cfi_restore s9
	.cfi_restore s10
	.cfi_restore s11
	addi	sp, sp, 1040
	.cfi_def_cfa_offset 0
	ret
.Lnoise_func_end6:
	.size	noise_noise_poly_Poly1305_take_eights, .Lnoise_func_end6-noise_noise_poly_Poly1305_take_eights
	.cfi_endproc

	.section	".text.noise_aead::keystream::apply","ax",@progbits
	.p2align	1
	.type	noise_noise_aead_keystream_apply,@function
noise_noise_aead_keystream_apply:
	.cfi_startproc
	addi	sp, sp, -496
	.cfi_def_cfa_offset 496
	sd	ra, 488(sp)
	sd	s0, 480(sp)
	sd	s1, 472(sp)
	sd	s2, 464(sp)
	sd	s3, 456(sp)
	sd	s4, 448(sp)
	sd	s5, 440(sp)
	sd	s6, 432(sp)
	sd	s7, 424(sp)
	sd	s8, 416(sp)
	sd	s9, 408(sp)
	sd	s10, 400(sp)
	sd	s11, 392(sp)
	.cfi_offset ra, -8
	.cfi_offset s0, -16
	.cfi_offset s1, -24
	.cfi_offset s2, -32
	.cfi_offset s3, -40
	.cfi_offset s4, -48
	.cfi_offset s5, -56
	.cfi_offset s6, -64
	.cfi_offset s7, -72
	.cfi_offset s8, -80
	.cfi_offset s9, -88
	.cfi_offset s10, -96
	.cfi_offset s11, -104
	addi	sp, sp, -1600
	.cfi_def_cfa_offset 2096
	.cfi_remember_state
	sd	a1, 32(sp)
	mv	s10, a0
	srli	a0, a2, 6
	li	a1, 3
	mv	a3, a0
	bltu	a0, a1, .Lnoise_BB7_2
	li	a3, 3
.Lnoise_BB7_2:
	sd	a2, 24(sp)
	sub	a1, a0, a3
	sd	a3, 16(sp)
	slli	a3, a3, 6
	sd	a3, 1560(sp)
	sd	a1, 8(sp)
	srli	a1, a1, 2
	sd	a1, 48(sp)
	addi	a1, s10, 48
	sd	a1, 1904(sp)
	sd	s10, 1920(sp)
	beqz	a0, .Lnoise_BB7_46
	ld	s0, 32(sp)
	addi	s0, s0, 31
	ld	a0, 16(sp)
.Lnoise_BB7_4:
	sd	a0, 1888(sp)
	ld	a0, 304(s10)
	li	a1, 64
	bltu	a0, a1, .Lnoise_BB7_6
	ld	a2, 32(s10)
	ld	a1, 40(s10)
	mv	a0, s10
	ld	s7, 1904(sp)
	mv	a3, s7
	call	noise_rand_chacha_guts_refill4
	ld	a0, 40(s10)
	lw	t6, 48(s10)
	addi	a0, a0, 4
	sd	a0, 40(s10)
	li	a1, 1
	j	.Lnoise_BB7_8
.Lnoise_BB7_6:
	slli	a1, a0, 2
	ld	s7, 1904(sp)
	add	a1, a1, s7
	lw	t6, 0(a1)
	addi	a1, a0, 1
	li	a2, 63
	sd	a1, 304(s10)
	bne	a0, a2, .Lnoise_BB7_17
	ld	a2, 32(s10)
	ld	a1, 40(s10)
	mv	a0, s10
	mv	a3, s7
	mv	s1, t6
	call	noise_rand_chacha_guts_refill4
	mv	t6, s1
	li	a1, 0
	ld	a0, 40(s10)
	addi	a0, a0, 4
	sd	a0, 40(s10)
.Lnoise_BB7_8:
	slli	a0, a1, 2
	add	a0, a0, s7
	lw	a2, 0(a0)
	sd	a2, 1912(sp)
	lw	a2, 4(a0)
	sd	a2, 1896(sp)
	addi	a0, a0, 8
	addi	a1, a1, 3
.Lnoise_BB7_9:
	lw	a0, 0(a0)
	sd	a0, 1880(sp)
	sd	a1, 304(s10)
	slli	a0, a1, 2
	add	a0, a0, s7
	lw	ra, 0(a0)
	addi	a0, a1, 1
	sd	a0, 304(s10)
	addi	a1, a1, 2
.Lnoise_BB7_10:
	slli	a0, a0, 2
	slli	a2, a1, 2
	add	a0, a0, s7
	lw	t4, 0(a0)
	sd	a1, 304(s10)
	add	a2, a2, s7
	lw	t5, 0(a2)
	addi	a0, a1, 1
	sd	a0, 304(s10)
	addi	a1, a1, 2
.Lnoise_BB7_11:
	slli	a0, a0, 2
	slli	a2, a1, 2
	add	a0, a0, s7
	lw	s9, 0(a0)
	sd	a1, 304(s10)
	add	a2, a2, s7
	lw	s2, 0(a2)
	addi	a0, a1, 1
	sd	a0, 304(s10)
	addi	a1, a1, 2
.Lnoise_BB7_12:
	slli	a0, a0, 2
	slli	a2, a1, 2
	add	a0, a0, s7
	lw	s11, 0(a0)
	sd	a1, 304(s10)
	add	a2, a2, s7
	lw	s6, 0(a2)
	addi	a0, a1, 1
	sd	a0, 304(s10)
	addi	a1, a1, 2
.Lnoise_BB7_13:
	slli	a0, a0, 2
	slli	a2, a1, 2
	add	a0, a0, s7
	lw	s5, 0(a0)
	sd	a1, 304(s10)
	add	a2, a2, s7
	lw	s3, 0(a2)
	addi	a0, a1, 1
	sd	a0, 304(s10)
	addi	a1, a1, 2
.Lnoise_BB7_14:
	slli	a0, a0, 2
	slli	a2, a1, 2
	add	a0, a0, s7
	lw	s4, 0(a0)
	sd	a1, 304(s10)
	add	a2, a2, s7
	lw	s8, 0(a2)
	addi	a1, a1, 1
.Lnoise_BB7_15:
	sd	a1, 304(s10)
.Lnoise_BB7_16:
	slli	a3, a1, 2
	addi	a4, a1, 1
	srli	a6, s8, 8
	srli	a7, s8, 16
	srli	t0, s8, 24
	add	a3, a3, s7
	lw	t3, 0(a3)
	sd	a4, 304(s10)
	lbu	a4, 29(s0)
	lbu	a5, 30(s0)
	lbu	s1, 31(s0)
	lbu	a0, 32(s0)
	lbu	t1, 25(s0)
	lbu	t2, 26(s0)
	lbu	a1, 27(s0)
	lbu	a2, 28(s0)
	srli	a3, t3, 24
	xor	a0, a0, a3
	sd	a0, 1872(sp)
	srli	a0, t3, 16
	xor	a0, a0, s1
	sd	a0, 1864(sp)
	srli	a0, t3, 8
	xor	a0, a0, a5
	sd	a0, 1856(sp)
	xor	a0, t3, a4
	sd	a0, 1848(sp)
	xor	a0, t0, a2
	sd	a0, 1840(sp)
	xor	a0, a7, a1
	sd	a0, 1832(sp)
	lbu	a0, 21(s0)
	lbu	a1, 22(s0)
	lbu	a2, 23(s0)
	lbu	a3, 24(s0)
	xor	a4, a6, t2
	sd	a4, 1824(sp)
	srli	a4, s4, 8
	xor	a5, s8, t1
	sd	a5, 1816(sp)
	srli	a5, s4, 24
	xor	a3, a3, a5
	sd	a3, 1808(sp)
	srli	a3, s4, 16
	xor	a2, a2, a3
	sd	a2, 1800(sp)
	xor	a1, a1, a4
	sd	a1, 1792(sp)
	lbu	a1, 20(s0)
	lbu	a2, 19(s0)
	xor	a0, s4, a0
	sd	a0, 1784(sp)
	srli	a0, s3, 24
	xor	a0, a0, a1
	sd	a0, 1776(sp)
	lbu	a0, 18(s0)
	srli	a1, s3, 16
	xor	a1, a1, a2
	sd	a1, 1768(sp)
	lbu	a1, 17(s0)
	srli	a2, s3, 8
	xor	a0, a0, a2
	sd	a0, 1760(sp)
	lbu	a0, 16(s0)
	xor	a1, s3, a1
	sd	a1, 1752(sp)
	lbu	a1, 15(s0)
	srli	a2, s5, 24
	xor	a0, a0, a2
	sd	a0, 1744(sp)
	lbu	a0, 14(s0)
	srli	a2, s5, 16
	xor	a1, a1, a2
	sd	a1, 1736(sp)
	lbu	a1, 13(s0)
	srli	a2, s5, 8
	xor	a0, a0, a2
	sd	a0, 1728(sp)
	lbu	a0, 12(s0)
	xor	a1, s5, a1
	sd	a1, 1720(sp)
	lbu	a1, 11(s0)
	srli	a2, s6, 24
	xor	a0, a0, a2
	sd	a0, 1712(sp)
	lbu	a0, 10(s0)
	srli	a2, s6, 16
	xor	a1, a1, a2
	sd	a1, 1704(sp)
	lbu	a1, 9(s0)
	srli	a2, s6, 8
	xor	a0, a0, a2
	sd	a0, 1696(sp)
	lbu	a0, 8(s0)
	xor	a1, s6, a1
	sd	a1, 1688(sp)
	lbu	a1, 7(s0)
	srli	a2, s11, 24
	xor	a0, a0, a2
	sd	a0, 1680(sp)
	lbu	a0, 6(s0)
	srli	a2, s11, 16
	xor	a1, a1, a2
	sd	a1, 1672(sp)
	lbu	a1, 5(s0)
	srli	a2, s11, 8
	xor	a0, a0, a2
	sd	a0, 1664(sp)
	lbu	a0, 4(s0)
	xor	a1, s11, a1
	sd	a1, 1656(sp)
	lbu	a1, 3(s0)
	srli	a2, s2, 24
	xor	a0, a0, a2
	sd	a0, 1648(sp)
	lbu	a0, 2(s0)
	srli	a2, s2, 16
	xor	a1, a1, a2
	sd	a1, 1640(sp)
	lbu	a1, 1(s0)
	srli	a2, s2, 8
	xor	a0, a0, a2
	sd	a0, 1632(sp)
	lbu	a0, 0(s0)
	xor	a1, s2, a1
	sd	a1, 1624(sp)
	lbu	a1, -1(s0)
	srli	a2, s9, 24
	xor	a0, a0, a2
	sd	a0, 1616(sp)
	lbu	a0, -2(s0)
	srli	a2, s9, 16
	xor	a1, a1, a2
	sd	a1, 1608(sp)
	lbu	a1, -3(s0)
	srli	a2, s9, 8
	xor	a0, a0, a2
	sd	a0, 1600(sp)
	lbu	a0, -4(s0)
	xor	a1, s9, a1
	sd	a1, 1592(sp)
	lbu	a1, -5(s0)
	srli	a2, t5, 24
	xor	a0, a0, a2
	sd	a0, 1584(sp)
	lbu	a0, -6(s0)
	srli	a2, t5, 16
	xor	a1, a1, a2
	sd	a1, 1576(sp)
	lbu	a1, -7(s0)
	srli	a2, t5, 8
	xor	a0, a0, a2
	sd	a0, 1568(sp)
	lbu	a0, -8(s0)
	xor	t5, t5, a1
	lbu	a1, -9(s0)
	srli	a2, t4, 24
	mv	a3, t4
	xor	t4, a2, a0
	lbu	a0, -10(s0)
	srli	a5, a3, 16
	xor	t3, a5, a1
	lbu	a1, -11(s0)
	srli	a4, a3, 8
	xor	t2, a4, a0
	lbu	a0, -12(s0)
	xor	t1, a3, a1
	lbu	s5, -13(s0)
	srli	a2, ra, 24
	xor	t0, a2, a0
	lbu	a2, -14(s0)
	srli	a1, ra, 16
	xor	a7, a1, s5
	lbu	s5, -15(s0)
	srli	a0, ra, 8
	xor	a6, a0, a2
	lbu	a2, -16(s0)
	xor	s5, ra, s5
	lbu	s7, -17(s0)
	ld	a0, 1880(sp)
	srli	ra, a0, 24
	xor	ra, ra, a2
	lbu	a2, -18(s0)
	srli	s11, a0, 16
	xor	s7, s11, s7
	lbu	s11, -19(s0)
	srli	s10, a0, 8
	xor	s10, s10, a2
	lbu	a2, -20(s0)
	xor	s11, a0, s11
	lbu	s6, -21(s0)
	ld	a0, 1896(sp)
	srli	s9, a0, 24
	xor	s9, s9, a2
	lbu	a2, -22(s0)
	srli	s8, a0, 16
	xor	s6, s8, s6
	lbu	s8, -23(s0)
	srli	s4, a0, 8
	xor	s4, s4, a2
	lbu	a2, -24(s0)
	xor	s8, a0, s8
	lbu	s3, -25(s0)
	ld	a4, 1912(sp)
	srli	s1, a4, 24
	xor	a3, s1, a2
	srli	s1, a4, 16
	xor	s3, s1, s3
	lbu	s1, -26(s0)
	lbu	s2, -27(s0)
	srli	a0, a4, 8
	lbu	a1, -28(s0)
	xor	a2, a0, s1
	xor	s2, a4, s2
	srli	a5, t6, 24
	xor	a1, a1, a5
	lbu	a4, -29(s0)
	lbu	s1, -31(s0)
	lbu	a0, -30(s0)
	mv	a5, t6
	srli	t6, t6, 16
	xor	t6, t6, a4
	srli	a4, a5, 8
	xor	a0, a0, a4
	xor	a4, a5, s1
	sb	a4, -31(s0)
	sb	a0, -30(s0)
	sb	t6, -29(s0)
	sb	a1, -28(s0)
	sb	s2, -27(s0)
	sb	a2, -26(s0)
	sb	s3, -25(s0)
	sb	a3, -24(s0)
	sb	s8, -23(s0)
	sb	s4, -22(s0)
	sb	s6, -21(s0)
	sb	s9, -20(s0)
	sb	s11, -19(s0)
	sb	s10, -18(s0)
	ld	s10, 1920(sp)
	sb	s7, -17(s0)
	sb	ra, -16(s0)
	sb	s5, -15(s0)
	sb	a6, -14(s0)
	sb	a7, -13(s0)
	sb	t0, -12(s0)
	sb	t1, -11(s0)
	sb	t2, -10(s0)
	sb	t3, -9(s0)
	sb	t4, -8(s0)
	sb	t5, -7(s0)
	ld	a0, 1568(sp)
	sb	a0, -6(s0)
	ld	a0, 1576(sp)
	sb	a0, -5(s0)
	ld	a0, 1584(sp)
	sb	a0, -4(s0)
	ld	a0, 1592(sp)
	sb	a0, -3(s0)
	ld	a0, 1600(sp)
	sb	a0, -2(s0)
	ld	a0, 1608(sp)
	sb	a0, -1(s0)
	ld	a0, 1616(sp)
	sb	a0, 0(s0)
	ld	a0, 1624(sp)
	sb	a0, 1(s0)
	ld	a0, 1632(sp)
	sb	a0, 2(s0)
	ld	a0, 1640(sp)
	sb	a0, 3(s0)
	ld	a0, 1648(sp)
	sb	a0, 4(s0)
	ld	a0, 1656(sp)
	sb	a0, 5(s0)
	ld	a0, 1664(sp)
	sb	a0, 6(s0)
	ld	a0, 1672(sp)
	sb	a0, 7(s0)
	ld	a0, 1680(sp)
	sb	a0, 8(s0)
	ld	a0, 1688(sp)
	sb	a0, 9(s0)
	ld	a0, 1696(sp)
	sb	a0, 10(s0)
	ld	a0, 1704(sp)
	sb	a0, 11(s0)
	ld	a0, 1712(sp)
	sb	a0, 12(s0)
	ld	a0, 1720(sp)
	sb	a0, 13(s0)
	ld	a0, 1728(sp)
	sb	a0, 14(s0)
	ld	a0, 1736(sp)
	sb	a0, 15(s0)
	ld	a0, 1744(sp)
	sb	a0, 16(s0)
	ld	a0, 1752(sp)
	sb	a0, 17(s0)
	ld	a0, 1760(sp)
	sb	a0, 18(s0)
	ld	a0, 1768(sp)
	sb	a0, 19(s0)
	ld	a0, 1776(sp)
	sb	a0, 20(s0)
	ld	a0, 1784(sp)
	sb	a0, 21(s0)
	ld	a0, 1792(sp)
	sb	a0, 22(s0)
	ld	a0, 1800(sp)
	sb	a0, 23(s0)
	ld	a0, 1808(sp)
	sb	a0, 24(s0)
	ld	a0, 1816(sp)
	sb	a0, 25(s0)
	ld	a0, 1824(sp)
	sb	a0, 26(s0)
	ld	a0, 1832(sp)
	sb	a0, 27(s0)
	ld	a0, 1840(sp)
	sb	a0, 28(s0)
	ld	a0, 1848(sp)
	sb	a0, 29(s0)
	ld	a0, 1856(sp)
	sb	a0, 30(s0)
	ld	a0, 1864(sp)
	sb	a0, 31(s0)
	ld	a0, 1872(sp)
	sb	a0, 32(s0)
	ld	a0, 1888(sp)
	addi	a0, a0, -1
	addi	s0, s0, 64
	bnez	a0, .Lnoise_BB7_4
	j	.Lnoise_BB7_46
.Lnoise_BB7_17:
	slli	a1, a1, 2
	add	a1, a1, s7
	lw	a1, 0(a1)
	sd	a1, 1912(sp)
	addi	a1, a0, 2
	li	a2, 62
	sd	a1, 304(s10)
	bltu	a0, a2, .Lnoise_BB7_19
	mv	s3, t6
	ld	a2, 32(s10)
	ld	a1, 40(s10)
	mv	a0, s10
	mv	a3, s7
	call	noise_rand_chacha_guts_refill4
	ld	a0, 40(s10)
	lw	a1, 48(s10)
	sd	a1, 1896(sp)
	addi	a0, a0, 4
	sd	a0, 40(s10)
	li	a1, 1
	j	.Lnoise_BB7_21
.Lnoise_BB7_19:
	slli	a2, a1, 2
	add	a2, a2, s7
	lw	a2, 0(a2)
	sd	a2, 1896(sp)
	addi	a2, a0, 3
	li	a3, 61
	sd	a2, 304(s10)
	bne	a0, a3, .Lnoise_BB7_22
	mv	s3, t6
	ld	a2, 32(s10)
	ld	a1, 40(s10)
	mv	a0, s10
	mv	a3, s7
	call	noise_rand_chacha_guts_refill4
	li	a1, 0
	ld	a0, 40(s10)
	addi	a0, a0, 4
	sd	a0, 40(s10)
.Lnoise_BB7_21:
	slli	a0, a1, 2
	add	a0, a0, s7
	addi	a1, a1, 1
	mv	t6, s3
	j	.Lnoise_BB7_9
.Lnoise_BB7_22:
	slli	a2, a2, 2
	add	a2, a2, s7
	lw	a2, 0(a2)
	sd	a2, 1880(sp)
	addi	a2, a0, 4
	li	a3, 62
	sd	a2, 304(s10)
	bne	a1, a3, .Lnoise_BB7_24
	ld	a2, 32(s10)
	ld	a1, 40(s10)
	mv	a0, s10
	mv	a3, s7
	mv	s1, t6
	call	noise_rand_chacha_guts_refill4
	mv	t6, s1
	ld	a1, 40(s10)
	lw	ra, 48(s10)
	li	a0, 1
	addi	a1, a1, 4
	sd	a1, 40(s10)
	addi	a1, a0, 1
	j	.Lnoise_BB7_10
.Lnoise_BB7_24:
	slli	a1, a2, 2
	add	a1, a1, s7
	lw	ra, 0(a1)
	addi	a1, a0, 5
	li	a3, 59
	sd	a1, 304(s10)
	bltu	a0, a3, .Lnoise_BB7_26
	ld	a2, 32(s10)
	ld	a1, 40(s10)
	mv	a0, s10
	mv	a3, s7
	mv	s3, t6
	mv	s1, ra
	call	noise_rand_chacha_guts_refill4
	mv	ra, s1
	mv	t6, s3
	li	a0, 0
	ld	a1, 40(s10)
	addi	a1, a1, 4
	sd	a1, 40(s10)
	li	a1, 1
	j	.Lnoise_BB7_10
.Lnoise_BB7_26:
	slli	a1, a1, 2
	add	a1, a1, s7
	lw	t4, 0(a1)
	addi	a1, a0, 6
	li	a3, 62
	sd	a1, 304(s10)
	bne	a2, a3, .Lnoise_BB7_28
	ld	a2, 32(s10)
	ld	a1, 40(s10)
	mv	a0, s10
	mv	a3, s7
	mv	s3, t6
	mv	s1, ra
	mv	s4, t4
	call	noise_rand_chacha_guts_refill4
	mv	t4, s4
	mv	ra, s1
	mv	t6, s3
	ld	a1, 40(s10)
	lw	t5, 48(s10)
	li	a0, 1
	addi	a1, a1, 4
	sd	a1, 40(s10)
	addi	a1, a0, 1
	j	.Lnoise_BB7_11
.Lnoise_BB7_28:
	slli	a2, a1, 2
	add	a2, a2, s7
	lw	t5, 0(a2)
	addi	a2, a0, 7
	li	a3, 57
	sd	a2, 304(s10)
	bltu	a0, a3, .Lnoise_BB7_30
	ld	a2, 32(s10)
	ld	a1, 40(s10)
	mv	a0, s10
	mv	a3, s7
	mv	s3, t6
	mv	s1, ra
	mv	s4, t4
	mv	s5, t5
	call	noise_rand_chacha_guts_refill4
	mv	t5, s5
	mv	t4, s4
	mv	ra, s1
	mv	t6, s3
	li	a0, 0
	ld	a1, 40(s10)
	addi	a1, a1, 4
	sd	a1, 40(s10)
	li	a1, 1
	j	.Lnoise_BB7_11
.Lnoise_BB7_30:
	slli	a2, a2, 2
	add	a2, a2, s7
	lw	s9, 0(a2)
	addi	a2, a0, 8
	li	a3, 62
	sd	a2, 304(s10)
	bne	a1, a3, .Lnoise_BB7_32
	ld	a2, 32(s10)
	ld	a1, 40(s10)
	mv	a0, s10
	mv	a3, s7
	mv	s3, t6
	mv	s1, ra
	mv	s4, t4
	mv	s5, t5
	call	noise_rand_chacha_guts_refill4
	mv	t5, s5
	mv	t4, s4
	mv	ra, s1
	mv	t6, s3
	ld	a1, 40(s10)
	lw	s2, 48(s10)
	li	a0, 1
	addi	a1, a1, 4
	sd	a1, 40(s10)
	addi	a1, a0, 1
	j	.Lnoise_BB7_12
.Lnoise_BB7_32:
	slli	a1, a2, 2
	add	a1, a1, s7
	lw	s2, 0(a1)
	addi	a1, a0, 9
	li	a3, 55
	sd	a1, 304(s10)
	bltu	a0, a3, .Lnoise_BB7_34
	ld	a2, 32(s10)
	ld	a1, 40(s10)
	mv	a0, s10
	mv	a3, s7
	mv	s3, t6
	mv	s1, ra
	mv	s4, t4
	mv	s5, t5
	call	noise_rand_chacha_guts_refill4
	mv	t5, s5
	mv	t4, s4
	mv	ra, s1
	mv	t6, s3
	li	a0, 0
	ld	a1, 40(s10)
	addi	a1, a1, 4
	sd	a1, 40(s10)
	li	a1, 1
	j	.Lnoise_BB7_12
.Lnoise_BB7_34:
	slli	a1, a1, 2
	add	a1, a1, s7
	lw	s11, 0(a1)
	addi	a1, a0, 10
	li	a3, 62
	sd	a1, 304(s10)
	bne	a2, a3, .Lnoise_BB7_36
	ld	a2, 32(s10)
	ld	a1, 40(s10)
	mv	a0, s10
	mv	a3, s7
	mv	s3, t6
	mv	s1, ra
	mv	s4, t4
	mv	s5, t5
	call	noise_rand_chacha_guts_refill4
	mv	t5, s5
	mv	t4, s4
	mv	ra, s1
	mv	t6, s3
	ld	a1, 40(s10)
	lw	s6, 48(s10)
	li	a0, 1
	addi	a1, a1, 4
	sd	a1, 40(s10)
	addi	a1, a0, 1
	j	.Lnoise_BB7_13
.Lnoise_BB7_36:
	slli	a2, a1, 2
	add	a2, a2, s7
	lw	s6, 0(a2)
	addi	a2, a0, 11
	li	a3, 53
	sd	a2, 304(s10)
	bltu	a0, a3, .Lnoise_BB7_38
	ld	a2, 32(s10)
	ld	a1, 40(s10)
	mv	a0, s10
	mv	a3, s7
	mv	s3, t6
	mv	s1, ra
	mv	s4, t4
	mv	s5, t5
	call	noise_rand_chacha_guts_refill4
	mv	t5, s5
	mv	t4, s4
	mv	ra, s1
	mv	t6, s3
	li	a0, 0
	ld	a1, 40(s10)
	addi	a1, a1, 4
	sd	a1, 40(s10)
	li	a1, 1
	j	.Lnoise_BB7_13
.Lnoise_BB7_38:
	slli	a2, a2, 2
	add	a2, a2, s7
	lw	s5, 0(a2)
	addi	a2, a0, 12
	li	a3, 62
	sd	a2, 304(s10)
	bne	a1, a3, .Lnoise_BB7_40
	ld	a2, 32(s10)
	ld	a1, 40(s10)
	mv	a0, s10
	mv	a3, s7
	mv	s3, t6
	mv	s1, ra
	mv	s4, t4
	mv	s8, t5
	call	noise_rand_chacha_guts_refill4
	mv	t5, s8
	mv	t4, s4
	mv	ra, s1
	mv	t6, s3
	ld	a1, 40(s10)
	lw	s3, 48(s10)
	li	a0, 1
	addi	a1, a1, 4
	sd	a1, 40(s10)
	addi	a1, a0, 1
	j	.Lnoise_BB7_14
.Lnoise_BB7_40:
	slli	a1, a2, 2
	add	a1, a1, s7
	lw	s3, 0(a1)
	addi	a1, a0, 13
	li	a3, 51
	sd	a1, 304(s10)
	bltu	a0, a3, .Lnoise_BB7_42
	ld	a2, 32(s10)
	ld	a1, 40(s10)
	mv	a0, s10
	mv	a3, s7
	sd	t6, 1872(sp)
	mv	s1, ra
	mv	s8, t4
	mv	s4, t5
	call	noise_rand_chacha_guts_refill4
	mv	t5, s4
	mv	t4, s8
	mv	ra, s1
	ld	t6, 1872(sp)
	li	a0, 0
	ld	a1, 40(s10)
	addi	a1, a1, 4
	sd	a1, 40(s10)
	li	a1, 1
	j	.Lnoise_BB7_14
.Lnoise_BB7_42:
	slli	a1, a1, 2
	add	a1, a1, s7
	lw	s4, 0(a1)
	addi	a1, a0, 14
	li	a3, 62
	sd	a1, 304(s10)
	bne	a2, a3, .Lnoise_BB7_44
	ld	a2, 32(s10)
	ld	a1, 40(s10)
	mv	a0, s10
	mv	a3, s7
	sd	t6, 1872(sp)
	mv	s1, ra
	sd	t4, 1864(sp)
	mv	s8, t5
	call	noise_rand_chacha_guts_refill4
	mv	t5, s8
	ld	t4, 1864(sp)
	mv	ra, s1
	ld	t6, 1872(sp)
	ld	a0, 40(s10)
	lw	s8, 48(s10)
	addi	a0, a0, 4
	sd	a0, 40(s10)
	li	a1, 1
	j	.Lnoise_BB7_15
.Lnoise_BB7_44:
	slli	a1, a1, 2
	add	a1, a1, s7
	lw	s8, 0(a1)
	addi	a1, a0, 15
	li	a2, 49
	sd	a1, 304(s10)
	bltu	a0, a2, .Lnoise_BB7_16
	ld	a2, 32(s10)
	ld	a1, 40(s10)
	mv	a0, s10
	mv	a3, s7
	sd	t6, 1872(sp)
	mv	s1, ra
	sd	t4, 1864(sp)
	sd	t5, 1856(sp)
	call	noise_rand_chacha_guts_refill4
	ld	t5, 1856(sp)
	ld	t4, 1864(sp)
	mv	ra, s1
	ld	t6, 1872(sp)
	li	a1, 0
	ld	a0, 40(s10)
	addi	a0, a0, 4
	sd	a0, 40(s10)
	j	.Lnoise_BB7_16
.Lnoise_BB7_46:
	ld	a0, 32(sp)
	ld	a3, 1560(sp)
	add	a3, a3, a0
	ld	s2, 1904(sp)
	ld	a2, 48(sp)
	bnez	a2, .Lnoise_BB7_47
	j	.Lnoise_BB7_49
.Lnoise_BB7_47:
	li	a0, 0
	sd	a3, 40(sp)
.Lnoise_BB7_48:
	sd	a0, 1912(sp)
	ld	a0, 304(s10)
	ld	s11, 32(s10)
	ld	a1, 40(s10)
	ld	s0, 1912(sp)
	slli	s0, s0, 8
	add	s0, s0, a3
	srli	a0, a0, 4
	add	a0, a0, a1
	addi	s1, a0, -4
	sd	s1, 40(s10)
	li	a2, 256
	mv	a0, s2
	li	a1, 0
	call	memset
	li	s3, 64
	sd	s3, 304(s10)
	mv	a0, s10
	mv	a1, s1
	mv	a2, s11
	mv	a3, s2
	call	noise_rand_chacha_guts_refill4
	ld	t0, 40(s10)
	lw	a7, 48(s10)
	lw	t1, 52(s10)
	lw	t2, 56(s10)
	lw	s4, 92(s10)
	lw	s5, 96(s10)
	lw	s6, 100(s10)
	lw	s7, 104(s10)
	lw	s8, 108(s10)
	lw	a6, 112(s10)
	lw	t6, 116(s10)
	lw	s9, 120(s10)
	sd	s3, 304(s10)
	addi	a2, t0, 4
	srli	t0, s5, 8
	srli	t3, s6, 8
	srli	t4, s6, 16
	srli	t5, s6, 24
	srli	s2, s7, 16
	srli	s3, s7, 24
	sd	a2, 40(s10)
	lbu	s11, 60(s0)
	lbu	a4, 61(s0)
	lbu	a5, 62(s0)
	lbu	a3, 63(s0)
	srli	a1, s8, 8
	srli	s1, s8, 16
	srli	a0, s8, 24
	xor	a0, a0, a3
	sd	a0, 1896(sp)
	lbu	s10, 56(s0)
	lbu	a3, 57(s0)
	lbu	a0, 58(s0)
	lbu	a2, 59(s0)
	xor	a5, a5, s1
	sd	a5, 1888(sp)
	xor	a1, a1, a4
	sd	a1, 1880(sp)
	xor	a1, s11, s8
	sd	a1, 1872(sp)
	xor	a1, a2, s3
	sd	a1, 1864(sp)
	lbu	a1, 52(s0)
	lbu	a2, 53(s0)
	lbu	a4, 54(s0)
	lbu	a5, 55(s0)
	xor	a0, a0, s2
	sd	a0, 1856(sp)
	srli	a0, s7, 8
	xor	a0, a0, a3
	sd	a0, 1848(sp)
	xor	a0, s10, s7
	sd	a0, 1840(sp)
	xor	a0, a5, t5
	sd	a0, 1832(sp)
	xor	a0, a4, t4
	sd	a0, 1824(sp)
	lbu	a0, 48(s0)
	lbu	a3, 49(s0)
	lbu	a4, 50(s0)
	lbu	a5, 51(s0)
	xor	a2, a2, t3
	sd	a2, 1816(sp)
	srli	a2, s5, 16
	xor	a1, a1, s6
	sd	a1, 1808(sp)
	srli	a1, s5, 24
	xor	a1, a1, a5
	sd	a1, 1800(sp)
	xor	a2, a2, a4
	sd	a2, 1792(sp)
	xor	a1, a3, t0
	sd	a1, 1784(sp)
	lbu	a1, 45(s0)
	lbu	a2, 47(s0)
	lbu	a3, 46(s0)
	xor	a0, a0, s5
	sd	a0, 1776(sp)
	srli	a0, s4, 24
	xor	a0, a0, a2
	sd	a0, 1768(sp)
	srli	a0, s4, 16
	xor	a0, a0, a3
	sd	a0, 1760(sp)
	lbu	a0, 44(s0)
	srli	a2, s4, 8
	xor	a1, a1, a2
	sd	a1, 1752(sp)
	ld	a1, 1920(sp)
	lw	a1, 88(a1)
	lbu	a2, 43(s0)
	xor	a0, a0, s4
	sd	a0, 1744(sp)
	lbu	a0, 42(s0)
	srli	a3, a1, 24
	xor	a2, a2, a3
	sd	a2, 1736(sp)
	lbu	a2, 41(s0)
	srli	a3, a1, 16
	xor	a0, a0, a3
	sd	a0, 1728(sp)
	lbu	a0, 40(s0)
	srli	a3, a1, 8
	xor	a2, a2, a3
	sd	a2, 1720(sp)
	ld	a2, 1920(sp)
	lw	a2, 84(a2)
	lbu	a3, 39(s0)
	xor	a0, a0, a1
	sd	a0, 1712(sp)
	lbu	a0, 38(s0)
	srli	a1, a2, 24
	xor	a1, a1, a3
	sd	a1, 1704(sp)
	lbu	a1, 37(s0)
	srli	a3, a2, 16
	xor	a0, a0, a3
	sd	a0, 1696(sp)
	lbu	a0, 36(s0)
	srli	a3, a2, 8
	xor	a1, a1, a3
	sd	a1, 1688(sp)
	ld	a1, 1920(sp)
	lw	a1, 80(a1)
	lbu	a3, 35(s0)
	xor	a0, a0, a2
	sd	a0, 1680(sp)
	lbu	a0, 34(s0)
	srli	a2, a1, 24
	xor	a2, a2, a3
	sd	a2, 1672(sp)
	lbu	a2, 33(s0)
	srli	a3, a1, 16
	xor	a0, a0, a3
	sd	a0, 1664(sp)
	lbu	a0, 32(s0)
	srli	a3, a1, 8
	xor	a2, a2, a3
	sd	a2, 1656(sp)
	ld	a2, 1920(sp)
	lw	a2, 76(a2)
	lbu	a3, 31(s0)
	xor	a0, a0, a1
	sd	a0, 1648(sp)
	lbu	a0, 30(s0)
	srli	a1, a2, 24
	xor	a1, a1, a3
	sd	a1, 1640(sp)
	lbu	a1, 29(s0)
	srli	a3, a2, 16
	xor	a0, a0, a3
	sd	a0, 1632(sp)
	lbu	a0, 28(s0)
	srli	a3, a2, 8
	xor	a1, a1, a3
	sd	a1, 1624(sp)
	ld	a1, 1920(sp)
	lw	a1, 72(a1)
	lbu	a3, 27(s0)
	xor	a0, a0, a2
	sd	a0, 1616(sp)
	lbu	a0, 26(s0)
	srli	a2, a1, 24
	xor	a2, a2, a3
	sd	a2, 1608(sp)
	lbu	a2, 25(s0)
	srli	a3, a1, 16
	xor	a0, a0, a3
	sd	a0, 1600(sp)
	lbu	a0, 24(s0)
	srli	a3, a1, 8
	xor	a2, a2, a3
	sd	a2, 1592(sp)
	ld	a2, 1920(sp)
	lw	a2, 68(a2)
	lbu	a3, 23(s0)
	xor	a0, a0, a1
	sd	a0, 1584(sp)
	lbu	a0, 22(s0)
	srli	a1, a2, 24
	xor	a1, a1, a3
	sd	a1, 1576(sp)
	lbu	a1, 21(s0)
	srli	a3, a2, 16
	xor	a0, a0, a3
	sd	a0, 1568(sp)
	lbu	a0, 20(s0)
	srli	a3, a2, 8
	xor	a1, a1, a3
	sd	a1, 1560(sp)
	ld	a1, 1920(sp)
	lw	a1, 64(a1)
	lbu	a3, 19(s0)
	xor	a0, a0, a2
	sd	a0, 1552(sp)
	lbu	a0, 18(s0)
	srli	a2, a1, 24
	xor	a2, a2, a3
	sd	a2, 1544(sp)
	lbu	a2, 17(s0)
	srli	a3, a1, 16
	xor	a0, a0, a3
	sd	a0, 1536(sp)
	lbu	a0, 16(s0)
	srli	a3, a1, 8
	xor	a2, a2, a3
	sd	a2, 1528(sp)
	ld	a2, 1920(sp)
	lw	a2, 60(a2)
	lbu	a3, 15(s0)
	xor	a0, a0, a1
	sd	a0, 1520(sp)
	lbu	a0, 14(s0)
	srli	a1, a2, 24
	xor	a1, a1, a3
	sd	a1, 1512(sp)
	lbu	a1, 13(s0)
	srli	a3, a2, 16
	xor	a0, a0, a3
	sd	a0, 1504(sp)
	lbu	a0, 12(s0)
	srli	a3, a2, 8
	xor	a1, a1, a3
	sd	a1, 1496(sp)
	lbu	a1, 11(s0)
	xor	a0, a0, a2
	sd	a0, 1488(sp)
	lbu	a0, 10(s0)
	srli	a2, t2, 24
	xor	a1, a1, a2
	sd	a1, 1480(sp)
	lbu	a1, 9(s0)
	srli	a2, t2, 16
	xor	a0, a0, a2
	sd	a0, 1472(sp)
	lbu	a0, 8(s0)
	srli	a2, t2, 8
	xor	a1, a1, a2
	sd	a1, 1464(sp)
	lbu	a1, 7(s0)
	xor	a0, a0, t2
	sd	a0, 1456(sp)
	lbu	a0, 6(s0)
	srli	a2, t1, 24
	xor	a1, a1, a2
	sd	a1, 1448(sp)
	srli	a1, t1, 16
	xor	a0, a0, a1
	sd	a0, 1440(sp)
	lbu	a0, 5(s0)
	lbu	a1, 4(s0)
	srli	a2, t1, 8
	lbu	a3, 3(s0)
	xor	a0, a0, a2
	sd	a0, 1432(sp)
	xor	a0, a1, t1
	sd	a0, 1424(sp)
	srli	a0, a7, 24
	xor	a0, a0, a3
	sd	a0, 1416(sp)
	lbu	a0, 2(s0)
	lbu	a1, 0(s0)
	lbu	a2, 1(s0)
	srli	a3, a7, 16
	xor	a0, a0, a3
	sd	a0, 1408(sp)
	srli	a0, a7, 8
	xor	a0, a0, a2
	sd	a0, 1400(sp)
	xor	a0, a1, a7
	sd	a0, 1392(sp)
	lbu	a0, 126(s0)
	lbu	a3, 127(s0)
	ld	a1, 1920(sp)
	lw	a4, 172(a1)
	ld	a1, 1920(sp)
	lw	s8, 176(a1)
	ld	a1, 1920(sp)
	lw	a7, 180(a1)
	ld	a1, 1920(sp)
	lw	t0, 184(a1)
	srli	a5, a4, 24
	xor	a3, a3, a5
	sd	a3, 1384(sp)
	lbu	a3, 125(s0)
	srli	a5, a4, 16
	xor	a0, a0, a5
	sd	a0, 1376(sp)
	lbu	a0, 124(s0)
	srli	a5, a4, 8
	xor	a3, a3, a5
	sd	a3, 1368(sp)
	ld	a1, 1920(sp)
	lw	a3, 168(a1)
	lbu	a5, 123(s0)
	xor	a0, a0, a4
	sd	a0, 1360(sp)
	lbu	a0, 122(s0)
	srli	a4, a3, 24
	xor	a4, a4, a5
	sd	a4, 1352(sp)
	lbu	a4, 121(s0)
	srli	a5, a3, 16
	xor	a0, a0, a5
	sd	a0, 1344(sp)
	lbu	a0, 120(s0)
	srli	a5, a3, 8
	xor	a4, a4, a5
	sd	a4, 1336(sp)
	ld	a1, 1920(sp)
	lw	a4, 164(a1)
	lbu	a5, 119(s0)
	xor	a0, a0, a3
	sd	a0, 1328(sp)
	lbu	a0, 118(s0)
	srli	a3, a4, 24
	xor	a3, a3, a5
	sd	a3, 1320(sp)
	lbu	a3, 117(s0)
	srli	a5, a4, 16
	xor	a0, a0, a5
	sd	a0, 1312(sp)
	lbu	a0, 116(s0)
	srli	a5, a4, 8
	xor	a3, a3, a5
	sd	a3, 1304(sp)
	ld	a1, 1920(sp)
	lw	a3, 160(a1)
	lbu	a5, 115(s0)
	xor	a0, a0, a4
	sd	a0, 1296(sp)
	lbu	a0, 114(s0)
	srli	a4, a3, 24
	xor	a4, a4, a5
	sd	a4, 1288(sp)
	lbu	a4, 113(s0)
	srli	a5, a3, 16
	xor	a0, a0, a5
	sd	a0, 1280(sp)
	lbu	a0, 112(s0)
	srli	a5, a3, 8
	xor	a4, a4, a5
	sd	a4, 1272(sp)
	ld	a1, 1920(sp)
	lw	a4, 156(a1)
	lbu	a5, 111(s0)
	xor	a0, a0, a3
	sd	a0, 1264(sp)
	lbu	a0, 110(s0)
	srli	a3, a4, 24
	xor	a3, a3, a5
	sd	a3, 1256(sp)
	lbu	a3, 109(s0)
	srli	a5, a4, 16
	xor	a0, a0, a5
	sd	a0, 1248(sp)
	lbu	a0, 108(s0)
	srli	a5, a4, 8
	xor	a3, a3, a5
	sd	a3, 1240(sp)
	ld	a1, 1920(sp)
	lw	a3, 152(a1)
	lbu	a5, 107(s0)
	xor	a0, a0, a4
	sd	a0, 1232(sp)
	lbu	a0, 106(s0)
	srli	a4, a3, 24
	xor	a4, a4, a5
	sd	a4, 1224(sp)
	lbu	a4, 105(s0)
	srli	a5, a3, 16
	xor	a0, a0, a5
	sd	a0, 1216(sp)
	lbu	a0, 104(s0)
	srli	a5, a3, 8
	xor	a4, a4, a5
	sd	a4, 1208(sp)
	ld	a1, 1920(sp)
	lw	a4, 148(a1)
	lbu	a5, 103(s0)
	xor	a0, a0, a3
	sd	a0, 1200(sp)
	lbu	a0, 102(s0)
	srli	a3, a4, 24
	xor	a3, a3, a5
	sd	a3, 1192(sp)
	lbu	a3, 101(s0)
	srli	a5, a4, 16
	xor	a0, a0, a5
	sd	a0, 1184(sp)
	lbu	a0, 100(s0)
	srli	a5, a4, 8
	xor	a3, a3, a5
	sd	a3, 1176(sp)
	ld	a1, 1920(sp)
	lw	a3, 144(a1)
	lbu	a5, 99(s0)
	xor	a0, a0, a4
	sd	a0, 1168(sp)
	lbu	a0, 98(s0)
	srli	a4, a3, 24
	xor	a4, a4, a5
	sd	a4, 1160(sp)
	lbu	a4, 97(s0)
	srli	a5, a3, 16
	xor	a0, a0, a5
	sd	a0, 1152(sp)
	lbu	a0, 96(s0)
	srli	a5, a3, 8
	xor	a4, a4, a5
	sd	a4, 1144(sp)
	ld	a1, 1920(sp)
	lw	a4, 140(a1)
	lbu	a5, 95(s0)
	xor	a0, a0, a3
	sd	a0, 1136(sp)
	lbu	a0, 94(s0)
	srli	a3, a4, 24
	xor	a3, a3, a5
	sd	a3, 1128(sp)
	lbu	a3, 93(s0)
	srli	a5, a4, 16
	xor	a0, a0, a5
	sd	a0, 1120(sp)
	lbu	a0, 92(s0)
	srli	a5, a4, 8
	xor	a3, a3, a5
	sd	a3, 1112(sp)
	ld	a1, 1920(sp)
	lw	a3, 136(a1)
	lbu	a5, 91(s0)
	xor	a0, a0, a4
	sd	a0, 1104(sp)
	lbu	a0, 90(s0)
	srli	a4, a3, 24
	xor	a4, a4, a5
	sd	a4, 1096(sp)
	lbu	a4, 89(s0)
	srli	a5, a3, 16
	xor	a0, a0, a5
	sd	a0, 1088(sp)
	lbu	a0, 88(s0)
	srli	a5, a3, 8
	xor	a4, a4, a5
	sd	a4, 1080(sp)
	ld	a1, 1920(sp)
	lw	a4, 132(a1)
	lbu	a5, 87(s0)
	xor	a0, a0, a3
	sd	a0, 1072(sp)
	lbu	a0, 86(s0)
	srli	a3, a4, 24
	xor	a3, a3, a5
	sd	a3, 1064(sp)
	lbu	a3, 85(s0)
	srli	a5, a4, 16
	xor	a0, a0, a5
	sd	a0, 1056(sp)
	lbu	a0, 84(s0)
	srli	a5, a4, 8
	xor	a3, a3, a5
	sd	a3, 1048(sp)
	ld	a1, 1920(sp)
	lw	a3, 128(a1)
	lbu	a5, 83(s0)
	xor	a0, a0, a4
	sd	a0, 1040(sp)
	lbu	a0, 82(s0)
	srli	a4, a3, 24
	xor	a4, a4, a5
	sd	a4, 1032(sp)
	lbu	a4, 81(s0)
	srli	a5, a3, 16
	xor	a0, a0, a5
	sd	a0, 1024(sp)
	lbu	a0, 80(s0)
	srli	a5, a3, 8
	xor	a4, a4, a5
	sd	a4, 1016(sp)
	ld	a1, 1920(sp)
	lw	a4, 124(a1)
	lbu	a5, 79(s0)
	xor	a0, a0, a3
	sd	a0, 1008(sp)
	lbu	a0, 78(s0)
	srli	a3, a4, 24
	xor	a3, a3, a5
	sd	a3, 1000(sp)
	lbu	a3, 77(s0)
	srli	a5, a4, 16
	xor	a0, a0, a5
	sd	a0, 992(sp)
	lbu	a0, 76(s0)
	srli	a5, a4, 8
	xor	a3, a3, a5
	sd	a3, 984(sp)
	lbu	a3, 75(s0)
	xor	a0, a0, a4
	sd	a0, 976(sp)
	lbu	a0, 74(s0)
	srli	a4, s9, 24
	xor	a3, a3, a4
	sd	a3, 968(sp)
	lbu	a3, 73(s0)
	srli	a4, s9, 16
	xor	a0, a0, a4
	sd	a0, 960(sp)
	lbu	a0, 72(s0)
	srli	a4, s9, 8
	xor	a3, a3, a4
	sd	a3, 952(sp)
	lbu	a3, 71(s0)
	xor	a0, a0, s9
	sd	a0, 944(sp)
	lbu	a0, 70(s0)
	srli	a4, t6, 24
	xor	a3, a3, a4
	sd	a3, 936(sp)
	srli	a3, t6, 16
	xor	a0, a0, a3
	sd	a0, 928(sp)
	lbu	a0, 69(s0)
	lbu	a3, 68(s0)
	srli	a4, t6, 8
	lbu	a5, 67(s0)
	xor	a0, a0, a4
	sd	a0, 920(sp)
	xor	a0, a3, t6
	sd	a0, 912(sp)
	srli	a0, a6, 24
	xor	a0, a0, a5
	sd	a0, 904(sp)
	lbu	a0, 66(s0)
	lbu	a3, 64(s0)
	lbu	a4, 65(s0)
	srli	a5, a6, 16
	xor	a0, a0, a5
	sd	a0, 896(sp)
	srli	a0, a6, 8
	xor	a0, a0, a4
	sd	a0, 888(sp)
	xor	a0, a3, a6
	sd	a0, 880(sp)
	lbu	a5, 190(s0)
	lbu	s1, 191(s0)
	ld	a0, 1920(sp)
	lw	a2, 236(a0)
	ld	a0, 1920(sp)
	lw	s2, 240(a0)
	ld	a0, 1920(sp)
	lw	a3, 244(a0)
	ld	a0, 1920(sp)
	lw	a4, 248(a0)
	srli	a0, a2, 24
	xor	a0, a0, s1
	sd	a0, 872(sp)
	lbu	a0, 189(s0)
	srli	a1, a2, 16
	xor	a1, a1, a5
	sd	a1, 864(sp)
	lbu	a1, 188(s0)
	srli	a5, a2, 8
	xor	a0, a0, a5
	sd	a0, 856(sp)
	ld	a0, 1920(sp)
	lw	a0, 232(a0)
	lbu	a5, 187(s0)
	xor	a1, a1, a2
	sd	a1, 848(sp)
	lbu	a1, 186(s0)
	srli	a2, a0, 24
	xor	a2, a2, a5
	sd	a2, 840(sp)
	lbu	a2, 185(s0)
	srli	a5, a0, 16
	xor	a1, a1, a5
	sd	a1, 832(sp)
	lbu	a1, 184(s0)
	srli	a5, a0, 8
	xor	a2, a2, a5
	sd	a2, 824(sp)
	ld	a2, 1920(sp)
	lw	a2, 228(a2)
	lbu	a5, 183(s0)
	xor	a0, a0, a1
	sd	a0, 816(sp)
	lbu	a0, 182(s0)
	srli	a1, a2, 24
	xor	a1, a1, a5
	sd	a1, 808(sp)
	lbu	a1, 181(s0)
	srli	a5, a2, 16
	xor	a0, a0, a5
	sd	a0, 800(sp)
	lbu	a0, 180(s0)
	srli	a5, a2, 8
	xor	a1, a1, a5
	sd	a1, 792(sp)
	ld	a1, 1920(sp)
	lw	a1, 224(a1)
	lbu	a5, 179(s0)
	xor	a0, a0, a2
	sd	a0, 784(sp)
	lbu	a0, 178(s0)
	srli	a2, a1, 24
	xor	a2, a2, a5
	sd	a2, 776(sp)
	lbu	a2, 177(s0)
	srli	a5, a1, 16
	xor	a0, a0, a5
	sd	a0, 768(sp)
	lbu	a0, 176(s0)
	srli	a5, a1, 8
	xor	a2, a2, a5
	sd	a2, 760(sp)
	ld	a2, 1920(sp)
	lw	a2, 220(a2)
	lbu	a5, 175(s0)
	xor	a0, a0, a1
	sd	a0, 752(sp)
	lbu	a0, 174(s0)
	srli	a1, a2, 24
	xor	a1, a1, a5
	sd	a1, 744(sp)
	lbu	a1, 173(s0)
	srli	a5, a2, 16
	xor	a0, a0, a5
	sd	a0, 736(sp)
	lbu	a0, 172(s0)
	srli	a5, a2, 8
	xor	a1, a1, a5
	sd	a1, 728(sp)
	ld	a1, 1920(sp)
	lw	a1, 216(a1)
	lbu	a5, 171(s0)
	xor	a0, a0, a2
	sd	a0, 720(sp)
	lbu	a0, 170(s0)
	srli	a2, a1, 24
	xor	a2, a2, a5
	sd	a2, 712(sp)
	lbu	a2, 169(s0)
	srli	a5, a1, 16
	xor	a0, a0, a5
	sd	a0, 704(sp)
	lbu	a0, 168(s0)
	srli	a5, a1, 8
	xor	a2, a2, a5
	sd	a2, 696(sp)
	ld	a2, 1920(sp)
	lw	a2, 212(a2)
	lbu	a5, 167(s0)
	xor	a0, a0, a1
	sd	a0, 688(sp)
	lbu	a0, 166(s0)
	srli	a1, a2, 24
	xor	a1, a1, a5
	sd	a1, 680(sp)
	lbu	a1, 165(s0)
	srli	a5, a2, 16
	xor	a0, a0, a5
	sd	a0, 672(sp)
	lbu	a0, 164(s0)
	srli	a5, a2, 8
	xor	a1, a1, a5
	sd	a1, 664(sp)
	ld	a1, 1920(sp)
	lw	a1, 208(a1)
	lbu	a5, 163(s0)
	xor	a0, a0, a2
	sd	a0, 656(sp)
	lbu	a0, 162(s0)
	srli	a2, a1, 24
	xor	a2, a2, a5
	sd	a2, 648(sp)
	lbu	a2, 161(s0)
	srli	a5, a1, 16
	xor	a0, a0, a5
	sd	a0, 640(sp)
	lbu	a0, 160(s0)
	srli	a5, a1, 8
	xor	a2, a2, a5
	sd	a2, 632(sp)
	ld	a2, 1920(sp)
	lw	a2, 204(a2)
	lbu	a5, 159(s0)
	xor	a0, a0, a1
	sd	a0, 624(sp)
	lbu	a0, 158(s0)
	srli	a1, a2, 24
	xor	a1, a1, a5
	sd	a1, 616(sp)
	lbu	a1, 157(s0)
	srli	a5, a2, 16
	xor	a0, a0, a5
	sd	a0, 608(sp)
	lbu	a0, 156(s0)
	srli	a5, a2, 8
	xor	a1, a1, a5
	sd	a1, 600(sp)
	ld	a1, 1920(sp)
	lw	a1, 200(a1)
	lbu	a5, 155(s0)
	xor	a0, a0, a2
	sd	a0, 592(sp)
	lbu	a0, 154(s0)
	srli	a2, a1, 24
	xor	a2, a2, a5
	sd	a2, 584(sp)
	lbu	a2, 153(s0)
	srli	a5, a1, 16
	xor	a0, a0, a5
	sd	a0, 576(sp)
	lbu	a0, 152(s0)
	srli	a5, a1, 8
	xor	a2, a2, a5
	sd	a2, 568(sp)
	ld	a2, 1920(sp)
	lw	a2, 196(a2)
	lbu	a5, 151(s0)
	xor	a0, a0, a1
	sd	a0, 560(sp)
	lbu	a0, 150(s0)
	srli	a1, a2, 24
	xor	a1, a1, a5
	sd	a1, 552(sp)
	lbu	a1, 149(s0)
	srli	a5, a2, 16
	xor	a0, a0, a5
	sd	a0, 544(sp)
	lbu	a0, 148(s0)
	srli	a5, a2, 8
	xor	a1, a1, a5
	sd	a1, 536(sp)
	ld	a1, 1920(sp)
	lw	a1, 192(a1)
	lbu	a5, 147(s0)
	xor	a0, a0, a2
	sd	a0, 528(sp)
	lbu	a0, 146(s0)
	srli	a2, a1, 24
	xor	a2, a2, a5
	sd	a2, 520(sp)
	lbu	a2, 145(s0)
	srli	a5, a1, 16
	xor	a0, a0, a5
	sd	a0, 512(sp)
	lbu	a0, 144(s0)
	srli	a5, a1, 8
	xor	a2, a2, a5
	sd	a2, 504(sp)
	ld	a2, 1920(sp)
	lw	a2, 188(a2)
	lbu	a5, 143(s0)
	xor	a0, a0, a1
	sd	a0, 496(sp)
	lbu	a0, 142(s0)
	srli	a1, a2, 24
	xor	a1, a1, a5
	sd	a1, 488(sp)
	lbu	a1, 141(s0)
	srli	a5, a2, 16
	xor	a0, a0, a5
	sd	a0, 480(sp)
	lbu	a0, 140(s0)
	srli	a5, a2, 8
	xor	a1, a1, a5
	sd	a1, 472(sp)
	lbu	a1, 139(s0)
	xor	a0, a0, a2
	sd	a0, 464(sp)
	lbu	a0, 138(s0)
	srli	a2, t0, 24
	xor	a1, a1, a2
	sd	a1, 456(sp)
	lbu	a1, 137(s0)
	srli	a2, t0, 16
	xor	a0, a0, a2
	sd	a0, 448(sp)
	lbu	a0, 136(s0)
	srli	a2, t0, 8
	xor	a1, a1, a2
	sd	a1, 440(sp)
	lbu	a1, 135(s0)
	xor	a0, a0, t0
	sd	a0, 432(sp)
	lbu	a0, 134(s0)
	srli	a2, a7, 24
	xor	a1, a1, a2
	sd	a1, 424(sp)
	lbu	a1, 133(s0)
	srli	a2, a7, 16
	xor	a0, a0, a2
	sd	a0, 416(sp)
	lbu	a0, 132(s0)
	srli	a2, a7, 8
	xor	a1, a1, a2
	sd	a1, 408(sp)
	lbu	a1, 131(s0)
	xor	a0, a0, a7
	sd	a0, 400(sp)
	lbu	a0, 130(s0)
	srli	a2, s8, 24
	xor	a1, a1, a2
	sd	a1, 392(sp)
	lbu	a1, 129(s0)
	srli	a2, s8, 16
	xor	a0, a0, a2
	sd	a0, 384(sp)
	lbu	a2, 128(s0)
	srli	a0, s8, 8
	xor	a0, a0, a1
	sd	a0, 376(sp)
	ld	a0, 1920(sp)
	lw	a1, 300(a0)
	lbu	a0, 255(s0)
	xor	a2, a2, s8
	sd	a2, 120(sp)
	lbu	a2, 254(s0)
	srli	a5, a1, 24
	xor	a0, a0, a5
	sd	a0, 368(sp)
	lbu	a0, 253(s0)
	srli	a5, a1, 16
	xor	a2, a2, a5
	sd	a2, 360(sp)
	lbu	a2, 252(s0)
	srli	a5, a1, 8
	xor	a0, a0, a5
	sd	a0, 352(sp)
	ld	a0, 1920(sp)
	lw	a0, 296(a0)
	lbu	a5, 251(s0)
	xor	a1, a1, a2
	sd	a1, 344(sp)
	lbu	a1, 250(s0)
	srli	a2, a0, 24
	xor	a2, a2, a5
	sd	a2, 336(sp)
	lbu	a2, 249(s0)
	srli	a5, a0, 16
	xor	a1, a1, a5
	sd	a1, 328(sp)
	lbu	a1, 248(s0)
	srli	a5, a0, 8
	xor	a2, a2, a5
	sd	a2, 320(sp)
	ld	a2, 1920(sp)
	lw	a2, 292(a2)
	lbu	a5, 247(s0)
	xor	a0, a0, a1
	sd	a0, 312(sp)
	lbu	a0, 246(s0)
	srli	a1, a2, 24
	xor	a1, a1, a5
	sd	a1, 304(sp)
	lbu	a1, 245(s0)
	srli	a5, a2, 16
	xor	a0, a0, a5
	sd	a0, 296(sp)
	lbu	a0, 244(s0)
	srli	a5, a2, 8
	xor	a1, a1, a5
	sd	a1, 288(sp)
	ld	a1, 1920(sp)
	lw	a1, 288(a1)
	lbu	a5, 243(s0)
	xor	a0, a0, a2
	sd	a0, 280(sp)
	lbu	a0, 242(s0)
	srli	a2, a1, 24
	xor	a2, a2, a5
	sd	a2, 272(sp)
	lbu	a2, 241(s0)
	srli	a5, a1, 16
	xor	a0, a0, a5
	sd	a0, 264(sp)
	lbu	a0, 240(s0)
	srli	a5, a1, 8
	xor	a2, a2, a5
	sd	a2, 256(sp)
	ld	a2, 1920(sp)
	lw	a2, 284(a2)
	lbu	a5, 239(s0)
	xor	a0, a0, a1
	sd	a0, 248(sp)
	lbu	a0, 238(s0)
	srli	a1, a2, 24
	xor	a1, a1, a5
	sd	a1, 240(sp)
	lbu	a1, 237(s0)
	srli	a5, a2, 16
	xor	a0, a0, a5
	sd	a0, 232(sp)
	lbu	a0, 236(s0)
	srli	a5, a2, 8
	xor	a1, a1, a5
	sd	a1, 224(sp)
	ld	a1, 1920(sp)
	lw	a1, 280(a1)
	lbu	a5, 235(s0)
	xor	a0, a0, a2
	sd	a0, 216(sp)
	lbu	a0, 234(s0)
	srli	a2, a1, 24
	xor	a2, a2, a5
	sd	a2, 208(sp)
	lbu	a2, 233(s0)
	srli	a5, a1, 16
	xor	a0, a0, a5
	sd	a0, 200(sp)
	lbu	a0, 232(s0)
	srli	a5, a1, 8
	xor	a2, a2, a5
	sd	a2, 192(sp)
	ld	a2, 1920(sp)
	lw	a2, 276(a2)
	lbu	a5, 231(s0)
	xor	a0, a0, a1
	sd	a0, 184(sp)
	lbu	a0, 230(s0)
	srli	a1, a2, 24
	xor	a1, a1, a5
	sd	a1, 176(sp)
	lbu	a1, 229(s0)
	srli	a5, a2, 16
	xor	a0, a0, a5
	sd	a0, 168(sp)
	lbu	a0, 228(s0)
	srli	a5, a2, 8
	xor	a1, a1, a5
	sd	a1, 160(sp)
	ld	a1, 1920(sp)
	lw	a1, 272(a1)
	lbu	a5, 227(s0)
	xor	a0, a0, a2
	sd	a0, 152(sp)
	lbu	a0, 226(s0)
	srli	a2, a1, 24
	xor	a2, a2, a5
	sd	a2, 144(sp)
	lbu	a2, 225(s0)
	srli	a5, a1, 16
	xor	a0, a0, a5
	sd	a0, 136(sp)
	lbu	a0, 224(s0)
	srli	a5, a1, 8
	xor	a2, a2, a5
	sd	a2, 128(sp)
	ld	a2, 1920(sp)
	lw	a2, 268(a2)
	lbu	a5, 223(s0)
	xor	a0, a0, a1
	sd	a0, 112(sp)
	lbu	a0, 222(s0)
	srli	a1, a2, 24
	xor	a1, a1, a5
	sd	a1, 104(sp)
	lbu	a1, 221(s0)
	srli	a5, a2, 16
	xor	a0, a0, a5
	sd	a0, 96(sp)
	lbu	a0, 220(s0)
	srli	a5, a2, 8
	xor	a1, a1, a5
	sd	a1, 88(sp)
	ld	a1, 1920(sp)
	lw	a1, 264(a1)
	lbu	a5, 219(s0)
	xor	a0, a0, a2
	sd	a0, 80(sp)
	lbu	a0, 218(s0)
	srli	a2, a1, 24
	xor	a2, a2, a5
	sd	a2, 72(sp)
	lbu	a2, 217(s0)
	srli	a5, a1, 16
	xor	a0, a0, a5
	sd	a0, 64(sp)
	lbu	a0, 216(s0)
	srli	a5, a1, 8
	xor	a2, a2, a5
	sd	a2, 56(sp)
	ld	a2, 1920(sp)
	lw	a2, 260(a2)
	lbu	a5, 215(s0)
	xor	ra, a0, a1
	lbu	a0, 214(s0)
	srli	a1, a2, 24
	xor	s11, a5, a1
	lbu	a1, 213(s0)
	srli	a5, a2, 16
	xor	s9, a0, a5
	lbu	a0, 212(s0)
	srli	a5, a2, 8
	xor	s8, a1, a5
	ld	a1, 1920(sp)
	lw	a1, 256(a1)
	lbu	a5, 211(s0)
	xor	s10, a0, a2
	lbu	a0, 210(s0)
	srli	a2, a1, 24
	xor	s5, a5, a2
	lbu	a2, 209(s0)
	srli	a5, a1, 16
	xor	s6, a0, a5
	lbu	a0, 208(s0)
	srli	a5, a1, 8
	xor	s7, a2, a5
	ld	a2, 1920(sp)
	lw	a2, 252(a2)
	lbu	a5, 207(s0)
	xor	s4, a0, a1
	lbu	a0, 206(s0)
	srli	a1, a2, 24
	xor	t6, a5, a1
	lbu	a1, 205(s0)
	srli	a5, a2, 16
	xor	t5, a0, a5
	lbu	a0, 204(s0)
	srli	a5, a2, 8
	xor	t4, a1, a5
	lbu	a1, 203(s0)
	xor	t3, a0, a2
	lbu	a0, 202(s0)
	srli	a2, a4, 24
	xor	t2, a1, a2
	lbu	a1, 201(s0)
	srli	a2, a4, 16
	xor	t1, a0, a2
	lbu	a0, 200(s0)
	srli	a2, a4, 8
	xor	t0, a1, a2
	lbu	a1, 199(s0)
	xor	s3, a0, a4
	lbu	a0, 198(s0)
	srli	a2, a3, 24
	xor	a7, a1, a2
	srli	a5, a3, 16
	xor	a6, a0, a5
	lbu	a0, 197(s0)
	lbu	s1, 196(s0)
	srli	a4, a3, 8
	lbu	a1, 195(s0)
	xor	a5, a0, a4
	xor	s1, s1, a3
	srli	a3, s2, 24
	xor	a4, a1, a3
	lbu	a0, 194(s0)
	lbu	a1, 192(s0)
	lbu	a2, 193(s0)
	srli	a3, s2, 16
	xor	a3, a3, a0
	srli	a0, s2, 8
	xor	a2, a2, a0
	xor	a0, a1, s2
	ld	s2, 1904(sp)
	ld	a1, 1392(sp)
	sb	a1, 0(s0)
	ld	a1, 1400(sp)
	sb	a1, 1(s0)
	ld	a1, 1408(sp)
	sb	a1, 2(s0)
	ld	a1, 1416(sp)
	sb	a1, 3(s0)
	ld	a1, 1424(sp)
	sb	a1, 4(s0)
	ld	a1, 1432(sp)
	sb	a1, 5(s0)
	ld	a1, 1440(sp)
	sb	a1, 6(s0)
	ld	a1, 1448(sp)
	sb	a1, 7(s0)
	ld	a1, 1456(sp)
	sb	a1, 8(s0)
	ld	a1, 1464(sp)
	sb	a1, 9(s0)
	ld	a1, 1472(sp)
	sb	a1, 10(s0)
	ld	a1, 1480(sp)
	sb	a1, 11(s0)
	ld	a1, 1488(sp)
	sb	a1, 12(s0)
	ld	a1, 1496(sp)
	sb	a1, 13(s0)
	ld	a1, 1504(sp)
	sb	a1, 14(s0)
	ld	a1, 1512(sp)
	sb	a1, 15(s0)
	ld	a1, 1520(sp)
	sb	a1, 16(s0)
	ld	a1, 1528(sp)
	sb	a1, 17(s0)
	ld	a1, 1536(sp)
	sb	a1, 18(s0)
	ld	a1, 1544(sp)
	sb	a1, 19(s0)
	ld	a1, 1552(sp)
	sb	a1, 20(s0)
	ld	a1, 1560(sp)
	sb	a1, 21(s0)
	ld	a1, 1568(sp)
	sb	a1, 22(s0)
	ld	a1, 1576(sp)
	sb	a1, 23(s0)
	ld	a1, 1584(sp)
	sb	a1, 24(s0)
	ld	a1, 1592(sp)
	sb	a1, 25(s0)
	ld	a1, 1600(sp)
	sb	a1, 26(s0)
	ld	a1, 1608(sp)
	sb	a1, 27(s0)
	ld	a1, 1616(sp)
	sb	a1, 28(s0)
	ld	a1, 1624(sp)
	sb	a1, 29(s0)
	ld	a1, 1632(sp)
	sb	a1, 30(s0)
	ld	a1, 1640(sp)
	sb	a1, 31(s0)
	ld	a1, 1648(sp)
	sb	a1, 32(s0)
	ld	a1, 1656(sp)
	sb	a1, 33(s0)
	ld	a1, 1664(sp)
	sb	a1, 34(s0)
	ld	a1, 1672(sp)
	sb	a1, 35(s0)
	ld	a1, 1680(sp)
	sb	a1, 36(s0)
	ld	a1, 1688(sp)
	sb	a1, 37(s0)
	ld	a1, 1696(sp)
	sb	a1, 38(s0)
	ld	a1, 1704(sp)
	sb	a1, 39(s0)
	ld	a1, 1712(sp)
	sb	a1, 40(s0)
	ld	a1, 1720(sp)
	sb	a1, 41(s0)
	ld	a1, 1728(sp)
	sb	a1, 42(s0)
	ld	a1, 1736(sp)
	sb	a1, 43(s0)
	ld	a1, 1744(sp)
	sb	a1, 44(s0)
	ld	a1, 1752(sp)
	sb	a1, 45(s0)
	ld	a1, 1760(sp)
	sb	a1, 46(s0)
	ld	a1, 1768(sp)
	sb	a1, 47(s0)
	ld	a1, 1776(sp)
	sb	a1, 48(s0)
	ld	a1, 1784(sp)
	sb	a1, 49(s0)
	ld	a1, 1792(sp)
	sb	a1, 50(s0)
	ld	a1, 1800(sp)
	sb	a1, 51(s0)
	ld	a1, 1808(sp)
	sb	a1, 52(s0)
	ld	a1, 1816(sp)
	sb	a1, 53(s0)
	ld	a1, 1824(sp)
	sb	a1, 54(s0)
	ld	a1, 1832(sp)
	sb	a1, 55(s0)
	ld	a1, 1840(sp)
	sb	a1, 56(s0)
	ld	a1, 1848(sp)
	sb	a1, 57(s0)
	ld	a1, 1856(sp)
	sb	a1, 58(s0)
	ld	a1, 1864(sp)
	sb	a1, 59(s0)
	ld	a1, 1872(sp)
	sb	a1, 60(s0)
	ld	a1, 1880(sp)
	sb	a1, 61(s0)
	ld	a1, 1888(sp)
	sb	a1, 62(s0)
	ld	a1, 1896(sp)
	sb	a1, 63(s0)
	ld	a1, 880(sp)
	sb	a1, 64(s0)
	ld	a1, 888(sp)
	sb	a1, 65(s0)
	ld	a1, 896(sp)
	sb	a1, 66(s0)
	ld	a1, 904(sp)
	sb	a1, 67(s0)
	ld	a1, 912(sp)
	sb	a1, 68(s0)
	ld	a1, 920(sp)
	sb	a1, 69(s0)
	ld	a1, 928(sp)
	sb	a1, 70(s0)
	ld	a1, 936(sp)
	sb	a1, 71(s0)
	ld	a1, 944(sp)
	sb	a1, 72(s0)
	ld	a1, 952(sp)
	sb	a1, 73(s0)
	ld	a1, 960(sp)
	sb	a1, 74(s0)
	ld	a1, 968(sp)
	sb	a1, 75(s0)
	ld	a1, 976(sp)
	sb	a1, 76(s0)
	ld	a1, 984(sp)
	sb	a1, 77(s0)
	ld	a1, 992(sp)
	sb	a1, 78(s0)
	ld	a1, 1000(sp)
	sb	a1, 79(s0)
	ld	a1, 1008(sp)
	sb	a1, 80(s0)
	ld	a1, 1016(sp)
	sb	a1, 81(s0)
	ld	a1, 1024(sp)
	sb	a1, 82(s0)
	ld	a1, 1032(sp)
	sb	a1, 83(s0)
	ld	a1, 1040(sp)
	sb	a1, 84(s0)
	ld	a1, 1048(sp)
	sb	a1, 85(s0)
	ld	a1, 1056(sp)
	sb	a1, 86(s0)
	ld	a1, 1064(sp)
	sb	a1, 87(s0)
	ld	a1, 1072(sp)
	sb	a1, 88(s0)
	ld	a1, 1080(sp)
	sb	a1, 89(s0)
	ld	a1, 1088(sp)
	sb	a1, 90(s0)
	ld	a1, 1096(sp)
	sb	a1, 91(s0)
	ld	a1, 1104(sp)
	sb	a1, 92(s0)
	ld	a1, 1112(sp)
	sb	a1, 93(s0)
	ld	a1, 1120(sp)
	sb	a1, 94(s0)
	ld	a1, 1128(sp)
	sb	a1, 95(s0)
	ld	a1, 1136(sp)
	sb	a1, 96(s0)
	ld	a1, 1144(sp)
	sb	a1, 97(s0)
	ld	a1, 1152(sp)
	sb	a1, 98(s0)
	ld	a1, 1160(sp)
	sb	a1, 99(s0)
	ld	a1, 1168(sp)
	sb	a1, 100(s0)
	ld	a1, 1176(sp)
	sb	a1, 101(s0)
	ld	a1, 1184(sp)
	sb	a1, 102(s0)
	ld	a1, 1192(sp)
	sb	a1, 103(s0)
	ld	a1, 1200(sp)
	sb	a1, 104(s0)
	ld	a1, 1208(sp)
	sb	a1, 105(s0)
	ld	a1, 1216(sp)
	sb	a1, 106(s0)
	ld	a1, 1224(sp)
	sb	a1, 107(s0)
	ld	a1, 1232(sp)
	sb	a1, 108(s0)
	ld	a1, 1240(sp)
	sb	a1, 109(s0)
	ld	a1, 1248(sp)
	sb	a1, 110(s0)
	ld	a1, 1256(sp)
	sb	a1, 111(s0)
	ld	a1, 1264(sp)
	sb	a1, 112(s0)
	ld	a1, 1272(sp)
	sb	a1, 113(s0)
	ld	a1, 1280(sp)
	sb	a1, 114(s0)
	ld	a1, 1288(sp)
	sb	a1, 115(s0)
	ld	a1, 1296(sp)
	sb	a1, 116(s0)
	ld	a1, 1304(sp)
	sb	a1, 117(s0)
	ld	a1, 1312(sp)
	sb	a1, 118(s0)
	ld	a1, 1320(sp)
	sb	a1, 119(s0)
	ld	a1, 1328(sp)
	sb	a1, 120(s0)
	ld	a1, 1336(sp)
	sb	a1, 121(s0)
	ld	a1, 1344(sp)
	sb	a1, 122(s0)
	ld	a1, 1352(sp)
	sb	a1, 123(s0)
	ld	a1, 1360(sp)
	sb	a1, 124(s0)
	ld	a1, 1368(sp)
	sb	a1, 125(s0)
	ld	a1, 1376(sp)
	sb	a1, 126(s0)
	ld	a1, 1384(sp)
	sb	a1, 127(s0)
	ld	a1, 120(sp)
	sb	a1, 128(s0)
	ld	a1, 376(sp)
	sb	a1, 129(s0)
	ld	a1, 384(sp)
	sb	a1, 130(s0)
	ld	a1, 392(sp)
	sb	a1, 131(s0)
	ld	a1, 400(sp)
	sb	a1, 132(s0)
	ld	a1, 408(sp)
	sb	a1, 133(s0)
	ld	a1, 416(sp)
	sb	a1, 134(s0)
	ld	a1, 424(sp)
	sb	a1, 135(s0)
	ld	a1, 432(sp)
	sb	a1, 136(s0)
	ld	a1, 440(sp)
	sb	a1, 137(s0)
	ld	a1, 448(sp)
	sb	a1, 138(s0)
	ld	a1, 456(sp)
	sb	a1, 139(s0)
	ld	a1, 464(sp)
	sb	a1, 140(s0)
	ld	a1, 472(sp)
	sb	a1, 141(s0)
	ld	a1, 480(sp)
	sb	a1, 142(s0)
	ld	a1, 488(sp)
	sb	a1, 143(s0)
	ld	a1, 496(sp)
	sb	a1, 144(s0)
	ld	a1, 504(sp)
	sb	a1, 145(s0)
	ld	a1, 512(sp)
	sb	a1, 146(s0)
	ld	a1, 520(sp)
	sb	a1, 147(s0)
	ld	a1, 528(sp)
	sb	a1, 148(s0)
	ld	a1, 536(sp)
	sb	a1, 149(s0)
	ld	a1, 544(sp)
	sb	a1, 150(s0)
	ld	a1, 552(sp)
	sb	a1, 151(s0)
	ld	a1, 560(sp)
	sb	a1, 152(s0)
	ld	a1, 568(sp)
	sb	a1, 153(s0)
	ld	a1, 576(sp)
	sb	a1, 154(s0)
	ld	a1, 584(sp)
	sb	a1, 155(s0)
	ld	a1, 592(sp)
	sb	a1, 156(s0)
	ld	a1, 600(sp)
	sb	a1, 157(s0)
	ld	a1, 608(sp)
	sb	a1, 158(s0)
	ld	a1, 616(sp)
	sb	a1, 159(s0)
	ld	a1, 624(sp)
	sb	a1, 160(s0)
	ld	a1, 632(sp)
	sb	a1, 161(s0)
	ld	a1, 640(sp)
	sb	a1, 162(s0)
	ld	a1, 648(sp)
	sb	a1, 163(s0)
	ld	a1, 656(sp)
	sb	a1, 164(s0)
	ld	a1, 664(sp)
	sb	a1, 165(s0)
	ld	a1, 672(sp)
	sb	a1, 166(s0)
	ld	a1, 680(sp)
	sb	a1, 167(s0)
	ld	a1, 688(sp)
	sb	a1, 168(s0)
	ld	a1, 696(sp)
	sb	a1, 169(s0)
	ld	a1, 704(sp)
	sb	a1, 170(s0)
	ld	a1, 712(sp)
	sb	a1, 171(s0)
	ld	a1, 720(sp)
	sb	a1, 172(s0)
	ld	a1, 728(sp)
	sb	a1, 173(s0)
	ld	a1, 736(sp)
	sb	a1, 174(s0)
	ld	a1, 744(sp)
	sb	a1, 175(s0)
	ld	a1, 752(sp)
	sb	a1, 176(s0)
	ld	a1, 760(sp)
	sb	a1, 177(s0)
	ld	a1, 768(sp)
	sb	a1, 178(s0)
	ld	a1, 776(sp)
	sb	a1, 179(s0)
	ld	a1, 784(sp)
	sb	a1, 180(s0)
	ld	a1, 792(sp)
	sb	a1, 181(s0)
	ld	a1, 800(sp)
	sb	a1, 182(s0)
	ld	a1, 808(sp)
	sb	a1, 183(s0)
	ld	a1, 816(sp)
	sb	a1, 184(s0)
	ld	a1, 824(sp)
	sb	a1, 185(s0)
	ld	a1, 832(sp)
	sb	a1, 186(s0)
	ld	a1, 840(sp)
	sb	a1, 187(s0)
	ld	a1, 848(sp)
	sb	a1, 188(s0)
	ld	a1, 856(sp)
	sb	a1, 189(s0)
	ld	a1, 864(sp)
	sb	a1, 190(s0)
	ld	a1, 872(sp)
	sb	a1, 191(s0)
	sb	a0, 192(s0)
	sb	a2, 193(s0)
	ld	a2, 48(sp)
	sb	a3, 194(s0)
	ld	a3, 40(sp)
	sb	a4, 195(s0)
	sb	s1, 196(s0)
	sb	a5, 197(s0)
	sb	a6, 198(s0)
	sb	a7, 199(s0)
	sb	s3, 200(s0)
	sb	t0, 201(s0)
	sb	t1, 202(s0)
	sb	t2, 203(s0)
	sb	t3, 204(s0)
	sb	t4, 205(s0)
	sb	t5, 206(s0)
	sb	t6, 207(s0)
	sb	s4, 208(s0)
	sb	s7, 209(s0)
	sb	s6, 210(s0)
	sb	s5, 211(s0)
	sb	s10, 212(s0)
	ld	s10, 1920(sp)
	sb	s8, 213(s0)
	sb	s9, 214(s0)
	sb	s11, 215(s0)
	sb	ra, 216(s0)
	ld	a0, 56(sp)
	sb	a0, 217(s0)
	ld	a0, 64(sp)
	sb	a0, 218(s0)
	ld	a0, 72(sp)
	sb	a0, 219(s0)
	ld	a0, 80(sp)
	sb	a0, 220(s0)
	ld	a0, 88(sp)
	sb	a0, 221(s0)
	ld	a0, 96(sp)
	sb	a0, 222(s0)
	ld	a0, 104(sp)
	sb	a0, 223(s0)
	ld	a0, 112(sp)
	sb	a0, 224(s0)
	ld	a0, 128(sp)
	sb	a0, 225(s0)
	ld	a0, 136(sp)
	sb	a0, 226(s0)
	ld	a0, 144(sp)
	sb	a0, 227(s0)
	ld	a0, 152(sp)
	sb	a0, 228(s0)
	ld	a0, 160(sp)
	sb	a0, 229(s0)
	ld	a0, 168(sp)
	sb	a0, 230(s0)
	ld	a0, 176(sp)
	sb	a0, 231(s0)
	ld	a0, 184(sp)
	sb	a0, 232(s0)
	ld	a0, 192(sp)
	sb	a0, 233(s0)
	ld	a0, 200(sp)
	sb	a0, 234(s0)
	ld	a0, 208(sp)
	sb	a0, 235(s0)
	ld	a0, 216(sp)
	sb	a0, 236(s0)
	ld	a0, 224(sp)
	sb	a0, 237(s0)
	ld	a0, 232(sp)
	sb	a0, 238(s0)
	ld	a0, 240(sp)
	sb	a0, 239(s0)
	ld	a0, 248(sp)
	sb	a0, 240(s0)
	ld	a0, 256(sp)
	sb	a0, 241(s0)
	ld	a0, 264(sp)
	sb	a0, 242(s0)
	ld	a0, 272(sp)
	sb	a0, 243(s0)
	ld	a0, 280(sp)
	sb	a0, 244(s0)
	ld	a0, 288(sp)
	sb	a0, 245(s0)
	ld	a0, 296(sp)
	sb	a0, 246(s0)
	ld	a0, 304(sp)
	sb	a0, 247(s0)
	ld	a0, 312(sp)
	sb	a0, 248(s0)
	ld	a0, 320(sp)
	sb	a0, 249(s0)
	ld	a0, 328(sp)
	sb	a0, 250(s0)
	ld	a0, 336(sp)
	sb	a0, 251(s0)
	ld	a0, 344(sp)
	sb	a0, 252(s0)
	ld	a0, 352(sp)
	sb	a0, 253(s0)
	ld	a0, 360(sp)
	sb	a0, 254(s0)
	ld	a0, 1912(sp)
	addi	a0, a0, 1
	sd	a0, 1912(sp)
	ld	a0, 368(sp)
	sb	a0, 255(s0)
	ld	a0, 1912(sp)
	beq	a0, a2, .Lnoise_BB7_49
	j	.Lnoise_BB7_48
.Lnoise_BB7_49:
	ld	a0, 8(sp)
	andi	a0, a0, -4
	ld	a1, 16(sp)
	or	a0, a0, a1
	slli	a0, a0, 6
	ld	a1, 24(sp)
	sub	a0, a1, a0
	srli	a0, a0, 6
	beqz	a0, .Lnoise_BB7_93
	slli	a1, a2, 8
	add	a1, a1, a3
	addi	s0, a1, 31
	slli	a0, a0, 6
	add	a0, a0, s0
	sd	a0, 1568(sp)
.Lnoise_BB7_51:
	ld	a0, 304(s10)
	li	a1, 64
	ld	s1, 1904(sp)
	bltu	a0, a1, .Lnoise_BB7_53
	ld	a2, 32(s10)
	ld	a1, 40(s10)
	mv	a0, s10
	mv	a3, s1
	call	noise_rand_chacha_guts_refill4
	ld	a0, 40(s10)
	lw	a1, 48(s10)
	sd	a1, 1912(sp)
	addi	a0, a0, 4
	sd	a0, 40(s10)
	li	a1, 1
	j	.Lnoise_BB7_55
.Lnoise_BB7_53:
	slli	a1, a0, 2
	add	a1, a1, s1
	lw	a1, 0(a1)
	sd	a1, 1912(sp)
	addi	a1, a0, 1
	li	a2, 63
	sd	a1, 304(s10)
	bne	a0, a2, .Lnoise_BB7_64
	ld	a2, 32(s10)
	ld	a1, 40(s10)
	mv	a0, s10
	mv	a3, s1
	call	noise_rand_chacha_guts_refill4
	li	a1, 0
	ld	a0, 40(s10)
	addi	a0, a0, 4
	sd	a0, 40(s10)
.Lnoise_BB7_55:
	slli	a0, a1, 2
	add	a0, a0, s1
	lw	a2, 0(a0)
	sd	a2, 1896(sp)
	lw	s6, 4(a0)
	addi	a0, a0, 8
	addi	a1, a1, 3
.Lnoise_BB7_56:
	lw	s7, 0(a0)
	sd	a1, 304(s10)
	slli	a0, a1, 2
	add	a0, a0, s1
	lw	s11, 0(a0)
	addi	a0, a1, 1
	sd	a0, 304(s10)
	addi	a1, a1, 2
.Lnoise_BB7_57:
	slli	a0, a0, 2
	slli	a2, a1, 2
	add	a0, a0, s1
	lw	t4, 0(a0)
	sd	a1, 304(s10)
	add	a2, a2, s1
	lw	t5, 0(a2)
	addi	a0, a1, 1
	sd	a0, 304(s10)
	addi	a1, a1, 2
.Lnoise_BB7_58:
	slli	a0, a0, 2
	slli	a2, a1, 2
	add	a0, a0, s1
	lw	t6, 0(a0)
	sd	a1, 304(s10)
	add	a2, a2, s1
	lw	ra, 0(a2)
	addi	a0, a1, 1
	sd	a0, 304(s10)
	addi	a1, a1, 2
.Lnoise_BB7_59:
	slli	a0, a0, 2
	slli	a2, a1, 2
	add	a0, a0, s1
	lw	s5, 0(a0)
	sd	a1, 304(s10)
	add	a2, a2, s1
	lw	s4, 0(a2)
	addi	a0, a1, 1
	sd	a0, 304(s10)
	addi	a1, a1, 2
.Lnoise_BB7_60:
	slli	a0, a0, 2
	slli	a2, a1, 2
	add	a0, a0, s1
	lw	s3, 0(a0)
	sd	a1, 304(s10)
	add	a2, a2, s1
	lw	s8, 0(a2)
	addi	a0, a1, 1
	sd	a0, 304(s10)
	addi	a1, a1, 2
.Lnoise_BB7_61:
	slli	a0, a0, 2
	slli	a2, a1, 2
	add	a0, a0, s1
	lw	s2, 0(a0)
	sd	a1, 304(s10)
	add	a2, a2, s1
	lw	s9, 0(a2)
	addi	a1, a1, 1
.Lnoise_BB7_62:
	sd	a1, 304(s10)
.Lnoise_BB7_63:
	slli	a3, a1, 2
	addi	a4, a1, 1
	srli	a6, s9, 8
	srli	a7, s9, 16
	srli	t0, s9, 24
	add	a3, a3, s1
	lw	t3, 0(a3)
	sd	a4, 304(s10)
	lbu	a4, 29(s0)
	lbu	a5, 30(s0)
	lbu	s1, 31(s0)
	lbu	a0, 32(s0)
	lbu	t1, 25(s0)
	lbu	t2, 26(s0)
	lbu	a1, 27(s0)
	lbu	a2, 28(s0)
	srli	a3, t3, 24
	xor	a0, a0, a3
	sd	a0, 1888(sp)
	srli	a0, t3, 16
	xor	a0, a0, s1
	sd	a0, 1880(sp)
	srli	a0, t3, 8
	xor	a0, a0, a5
	sd	a0, 1872(sp)
	xor	a0, t3, a4
	sd	a0, 1864(sp)
	xor	a0, t0, a2
	sd	a0, 1856(sp)
	xor	a0, a7, a1
	sd	a0, 1848(sp)
	lbu	a0, 21(s0)
	lbu	a1, 22(s0)
	lbu	a2, 23(s0)
	lbu	a3, 24(s0)
	xor	a4, a6, t2
	sd	a4, 1840(sp)
	srli	a4, s2, 8
	xor	a5, s9, t1
	sd	a5, 1832(sp)
	srli	a5, s2, 24
	xor	a3, a3, a5
	sd	a3, 1824(sp)
	srli	a3, s2, 16
	xor	a2, a2, a3
	sd	a2, 1816(sp)
	xor	a1, a1, a4
	sd	a1, 1808(sp)
	lbu	a1, 20(s0)
	lbu	a2, 19(s0)
	xor	a0, s2, a0
	sd	a0, 1800(sp)
	srli	a0, s8, 24
	xor	a0, a0, a1
	sd	a0, 1792(sp)
	lbu	a0, 18(s0)
	srli	a1, s8, 16
	xor	a1, a1, a2
	sd	a1, 1784(sp)
	lbu	a1, 17(s0)
	srli	a2, s8, 8
	xor	a0, a0, a2
	sd	a0, 1776(sp)
	lbu	a0, 16(s0)
	xor	a1, s8, a1
	sd	a1, 1768(sp)
	lbu	a1, 15(s0)
	srli	a2, s3, 24
	xor	a0, a0, a2
	sd	a0, 1760(sp)
	lbu	a0, 14(s0)
	srli	a2, s3, 16
	xor	a1, a1, a2
	sd	a1, 1752(sp)
	lbu	a1, 13(s0)
	srli	a2, s3, 8
	xor	a0, a0, a2
	sd	a0, 1744(sp)
	lbu	a0, 12(s0)
	xor	a1, s3, a1
	sd	a1, 1736(sp)
	lbu	a1, 11(s0)
	srli	a2, s4, 24
	xor	a0, a0, a2
	sd	a0, 1728(sp)
	lbu	a0, 10(s0)
	srli	a2, s4, 16
	xor	a1, a1, a2
	sd	a1, 1720(sp)
	lbu	a1, 9(s0)
	srli	a2, s4, 8
	xor	a0, a0, a2
	sd	a0, 1712(sp)
	lbu	a0, 8(s0)
	xor	a1, s4, a1
	sd	a1, 1704(sp)
	lbu	a1, 7(s0)
	srli	a2, s5, 24
	xor	a0, a0, a2
	sd	a0, 1696(sp)
	lbu	a0, 6(s0)
	srli	a2, s5, 16
	xor	a1, a1, a2
	sd	a1, 1688(sp)
	lbu	a1, 5(s0)
	srli	a2, s5, 8
	xor	a0, a0, a2
	sd	a0, 1680(sp)
	lbu	a0, 4(s0)
	xor	a1, s5, a1
	sd	a1, 1672(sp)
	lbu	a1, 3(s0)
	srli	a2, ra, 24
	xor	a0, a0, a2
	sd	a0, 1664(sp)
	lbu	a0, 2(s0)
	srli	a2, ra, 16
	xor	a1, a1, a2
	sd	a1, 1656(sp)
	lbu	a1, 1(s0)
	srli	a2, ra, 8
	xor	a0, a0, a2
	sd	a0, 1648(sp)
	lbu	a0, 0(s0)
	xor	a1, ra, a1
	sd	a1, 1640(sp)
	lbu	a1, -1(s0)
	srli	a2, t6, 24
	xor	a0, a0, a2
	sd	a0, 1632(sp)
	lbu	a0, -2(s0)
	srli	a2, t6, 16
	xor	a1, a1, a2
	sd	a1, 1624(sp)
	lbu	a1, -3(s0)
	srli	a2, t6, 8
	xor	a0, a0, a2
	sd	a0, 1616(sp)
	lbu	a0, -4(s0)
	xor	a1, t6, a1
	sd	a1, 1608(sp)
	lbu	a1, -5(s0)
	srli	a2, t5, 24
	xor	a0, a0, a2
	sd	a0, 1600(sp)
	lbu	a0, -6(s0)
	srli	a2, t5, 16
	xor	a1, a1, a2
	sd	a1, 1592(sp)
	lbu	a1, -7(s0)
	srli	a2, t5, 8
	xor	a0, a0, a2
	sd	a0, 1584(sp)
	lbu	a0, -8(s0)
	xor	a1, t5, a1
	sd	a1, 1576(sp)
	lbu	a1, -9(s0)
	srli	a2, t4, 24
	xor	s3, a2, a0
	lbu	a0, -10(s0)
	srli	a5, t4, 16
	xor	s2, a5, a1
	lbu	a1, -11(s0)
	srli	a4, t4, 8
	xor	t6, a4, a0
	lbu	a0, -12(s0)
	xor	t5, t4, a1
	lbu	s1, -13(s0)
	srli	a2, s11, 24
	xor	t4, a2, a0
	lbu	s10, -14(s0)
	srli	a1, s11, 16
	xor	t3, a1, s1
	lbu	s1, -15(s0)
	srli	a0, s11, 8
	xor	t2, a0, s10
	lbu	a0, -16(s0)
	xor	s10, s11, s1
	lbu	s1, -17(s0)
	srli	ra, s7, 24
	xor	ra, ra, a0
	lbu	a0, -18(s0)
	srli	s11, s7, 16
	xor	s11, s11, s1
	lbu	s1, -19(s0)
	srli	s9, s7, 8
	xor	s9, s9, a0
	lbu	a0, -20(s0)
	xor	t1, s7, s1
	lbu	a1, -21(s0)
	srli	s8, s6, 24
	xor	s8, s8, a0
	lbu	a0, -22(s0)
	srli	s7, s6, 16
	xor	s7, s7, a1
	lbu	a1, -23(s0)
	mv	a2, s6
	srli	s6, s6, 8
	xor	s6, s6, a0
	lbu	a0, -24(s0)
	xor	t0, a2, a1
	lbu	a1, -25(s0)
	ld	a4, 1896(sp)
	srli	s5, a4, 24
	xor	s5, s5, a0
	srli	a5, a4, 16
	xor	a7, a5, a1
	lbu	a5, -26(s0)
	lbu	a1, -27(s0)
	srli	a0, a4, 8
	lbu	a2, -28(s0)
	xor	a6, a0, a5
	xor	a4, a4, a1
	ld	a1, 1912(sp)
	srli	a5, a1, 24
	xor	a3, a5, a2
	lbu	a5, -29(s0)
	lbu	a2, -31(s0)
	lbu	a0, -30(s0)
	srli	s4, a1, 16
	xor	a5, s4, a5
	srli	s1, a1, 8
	xor	a0, a0, s1
	xor	a1, a1, a2
	sb	a1, -31(s0)
	sb	a0, -30(s0)
	sb	a5, -29(s0)
	sb	a3, -28(s0)
	sb	a4, -27(s0)
	sb	a6, -26(s0)
	sb	a7, -25(s0)
	sb	s5, -24(s0)
	sb	t0, -23(s0)
	sb	s6, -22(s0)
	sb	s7, -21(s0)
	sb	s8, -20(s0)
	sb	t1, -19(s0)
	sb	s9, -18(s0)
	sb	s11, -17(s0)
	sb	ra, -16(s0)
	sb	s10, -15(s0)
	ld	s10, 1920(sp)
	sb	t2, -14(s0)
	sb	t3, -13(s0)
	sb	t4, -12(s0)
	sb	t5, -11(s0)
	sb	t6, -10(s0)
	sb	s2, -9(s0)
	sb	s3, -8(s0)
	ld	a0, 1576(sp)
	sb	a0, -7(s0)
	ld	a0, 1584(sp)
	sb	a0, -6(s0)
	ld	a0, 1592(sp)
	sb	a0, -5(s0)
	ld	a0, 1600(sp)
	sb	a0, -4(s0)
	ld	a0, 1608(sp)
	sb	a0, -3(s0)
	ld	a0, 1616(sp)
	sb	a0, -2(s0)
	ld	a0, 1624(sp)
	sb	a0, -1(s0)
	ld	a0, 1632(sp)
	sb	a0, 0(s0)
	ld	a0, 1640(sp)
	sb	a0, 1(s0)
	ld	a0, 1648(sp)
	sb	a0, 2(s0)
	ld	a0, 1656(sp)
	sb	a0, 3(s0)
	ld	a0, 1664(sp)
	sb	a0, 4(s0)
	ld	a0, 1672(sp)
	sb	a0, 5(s0)
	ld	a0, 1680(sp)
	sb	a0, 6(s0)
	ld	a0, 1688(sp)
	sb	a0, 7(s0)
	ld	a0, 1696(sp)
	sb	a0, 8(s0)
	ld	a0, 1704(sp)
	sb	a0, 9(s0)
	ld	a0, 1712(sp)
	sb	a0, 10(s0)
	ld	a0, 1720(sp)
	sb	a0, 11(s0)
	ld	a0, 1728(sp)
	sb	a0, 12(s0)
	ld	a0, 1736(sp)
	sb	a0, 13(s0)
	ld	a0, 1744(sp)
	sb	a0, 14(s0)
	ld	a0, 1752(sp)
	sb	a0, 15(s0)
	ld	a0, 1760(sp)
	sb	a0, 16(s0)
	ld	a0, 1768(sp)
	sb	a0, 17(s0)
	ld	a0, 1776(sp)
	sb	a0, 18(s0)
	ld	a0, 1784(sp)
	sb	a0, 19(s0)
	ld	a0, 1792(sp)
	sb	a0, 20(s0)
	ld	a0, 1800(sp)
	sb	a0, 21(s0)
	ld	a0, 1808(sp)
	sb	a0, 22(s0)
	ld	a0, 1816(sp)
	sb	a0, 23(s0)
	ld	a0, 1824(sp)
	sb	a0, 24(s0)
	ld	a0, 1832(sp)
	sb	a0, 25(s0)
	ld	a0, 1840(sp)
	sb	a0, 26(s0)
	ld	a0, 1848(sp)
	sb	a0, 27(s0)
	ld	a0, 1856(sp)
	sb	a0, 28(s0)
	ld	a0, 1864(sp)
	sb	a0, 29(s0)
	ld	a0, 1872(sp)
	sb	a0, 30(s0)
	ld	a0, 1880(sp)
	sb	a0, 31(s0)
	ld	a0, 1888(sp)
	sb	a0, 32(s0)
	addi	s0, s0, 64
	ld	a0, 1568(sp)
	bne	s0, a0, .Lnoise_BB7_51
	j	.Lnoise_BB7_93
.Lnoise_BB7_64:
	slli	a1, a1, 2
	add	a1, a1, s1
	lw	a1, 0(a1)
	sd	a1, 1896(sp)
	addi	a1, a0, 2
	li	a2, 62
	sd	a1, 304(s10)
	bltu	a0, a2, .Lnoise_BB7_66
	ld	a2, 32(s10)
	ld	a1, 40(s10)
	mv	a0, s10
	mv	a3, s1
	call	noise_rand_chacha_guts_refill4
	ld	a0, 40(s10)
	lw	s6, 48(s10)
	addi	a0, a0, 4
	sd	a0, 40(s10)
	li	a1, 1
	j	.Lnoise_BB7_68
.Lnoise_BB7_66:
	slli	a2, a1, 2
	add	a2, a2, s1
	lw	s6, 0(a2)
	addi	a2, a0, 3
	li	a3, 61
	sd	a2, 304(s10)
	bne	a0, a3, .Lnoise_BB7_69
	ld	a2, 32(s10)
	ld	a1, 40(s10)
	mv	a0, s10
	mv	a3, s1
	call	noise_rand_chacha_guts_refill4
	li	a1, 0
	ld	a0, 40(s10)
	addi	a0, a0, 4
	sd	a0, 40(s10)
.Lnoise_BB7_68:
	slli	a0, a1, 2
	add	a0, a0, s1
	addi	a1, a1, 1
	j	.Lnoise_BB7_56
.Lnoise_BB7_69:
	slli	a2, a2, 2
	add	a2, a2, s1
	lw	s7, 0(a2)
	addi	a2, a0, 4
	li	a3, 62
	sd	a2, 304(s10)
	bne	a1, a3, .Lnoise_BB7_71
	ld	a2, 32(s10)
	ld	a1, 40(s10)
	mv	a0, s10
	mv	a3, s1
	call	noise_rand_chacha_guts_refill4
	ld	a1, 40(s10)
	lw	s11, 48(s10)
	li	a0, 1
	addi	a1, a1, 4
	sd	a1, 40(s10)
	addi	a1, a0, 1
	j	.Lnoise_BB7_57
.Lnoise_BB7_71:
	slli	a1, a2, 2
	add	a1, a1, s1
	lw	s11, 0(a1)
	addi	a1, a0, 5
	li	a3, 59
	sd	a1, 304(s10)
	bltu	a0, a3, .Lnoise_BB7_73
	ld	a2, 32(s10)
	ld	a1, 40(s10)
	mv	a0, s10
	mv	a3, s1
	call	noise_rand_chacha_guts_refill4
	li	a0, 0
	ld	a1, 40(s10)
	addi	a1, a1, 4
	sd	a1, 40(s10)
	li	a1, 1
	j	.Lnoise_BB7_57
.Lnoise_BB7_73:
	slli	a1, a1, 2
	add	a1, a1, s1
	lw	t4, 0(a1)
	addi	a1, a0, 6
	li	a3, 62
	sd	a1, 304(s10)
	bne	a2, a3, .Lnoise_BB7_75
	ld	a2, 32(s10)
	ld	a1, 40(s10)
	mv	a0, s10
	mv	a3, s1
	mv	s2, t4
	call	noise_rand_chacha_guts_refill4
	mv	t4, s2
	ld	a1, 40(s10)
	lw	t5, 48(s10)
	li	a0, 1
	addi	a1, a1, 4
	sd	a1, 40(s10)
	addi	a1, a0, 1
	j	.Lnoise_BB7_58
.Lnoise_BB7_75:
	slli	a2, a1, 2
	add	a2, a2, s1
	lw	t5, 0(a2)
	addi	a2, a0, 7
	li	a3, 57
	sd	a2, 304(s10)
	bltu	a0, a3, .Lnoise_BB7_77
	ld	a2, 32(s10)
	ld	a1, 40(s10)
	mv	a0, s10
	mv	a3, s1
	mv	s2, t4
	mv	s3, t5
	call	noise_rand_chacha_guts_refill4
	mv	t5, s3
	mv	t4, s2
	li	a0, 0
	ld	a1, 40(s10)
	addi	a1, a1, 4
	sd	a1, 40(s10)
	li	a1, 1
	j	.Lnoise_BB7_58
.Lnoise_BB7_77:
	slli	a2, a2, 2
	add	a2, a2, s1
	lw	t6, 0(a2)
	addi	a2, a0, 8
	li	a3, 62
	sd	a2, 304(s10)
	bne	a1, a3, .Lnoise_BB7_79
	ld	a2, 32(s10)
	ld	a1, 40(s10)
	mv	a0, s10
	mv	a3, s1
	mv	s2, t4
	mv	s3, t5
	mv	s4, t6
	call	noise_rand_chacha_guts_refill4
	mv	t6, s4
	mv	t5, s3
	mv	t4, s2
	ld	a1, 40(s10)
	lw	ra, 48(s10)
	li	a0, 1
	addi	a1, a1, 4
	sd	a1, 40(s10)
	addi	a1, a0, 1
	j	.Lnoise_BB7_59
.Lnoise_BB7_79:
	slli	a1, a2, 2
	add	a1, a1, s1
	lw	ra, 0(a1)
	addi	a1, a0, 9
	li	a3, 55
	sd	a1, 304(s10)
	bltu	a0, a3, .Lnoise_BB7_81
	ld	a2, 32(s10)
	ld	a1, 40(s10)
	mv	a0, s10
	mv	a3, s1
	mv	s2, t4
	mv	s3, t5
	mv	s4, t6
	mv	s8, ra
	call	noise_rand_chacha_guts_refill4
	mv	ra, s8
	mv	t6, s4
	mv	t5, s3
	mv	t4, s2
	li	a0, 0
	ld	a1, 40(s10)
	addi	a1, a1, 4
	sd	a1, 40(s10)
	li	a1, 1
	j	.Lnoise_BB7_59
.Lnoise_BB7_81:
	slli	a1, a1, 2
	add	a1, a1, s1
	lw	s5, 0(a1)
	addi	a1, a0, 10
	li	a3, 62
	sd	a1, 304(s10)
	bne	a2, a3, .Lnoise_BB7_83
	ld	a2, 32(s10)
	ld	a1, 40(s10)
	mv	a0, s10
	mv	a3, s1
	mv	s2, t4
	mv	s3, t5
	mv	s4, t6
	mv	s8, ra
	call	noise_rand_chacha_guts_refill4
	mv	ra, s8
	mv	t6, s4
	mv	t5, s3
	mv	t4, s2
	ld	a1, 40(s10)
	lw	s4, 48(s10)
	li	a0, 1
	addi	a1, a1, 4
	sd	a1, 40(s10)
	addi	a1, a0, 1
	j	.Lnoise_BB7_60
.Lnoise_BB7_83:
	slli	a2, a1, 2
	add	a2, a2, s1
	lw	s4, 0(a2)
	addi	a2, a0, 11
	li	a3, 53
	sd	a2, 304(s10)
	bltu	a0, a3, .Lnoise_BB7_85
	ld	a2, 32(s10)
	ld	a1, 40(s10)
	mv	a0, s10
	mv	a3, s1
	mv	s2, t4
	mv	s3, t5
	mv	s8, t6
	mv	s9, ra
	call	noise_rand_chacha_guts_refill4
	mv	ra, s9
	mv	t6, s8
	mv	t5, s3
	mv	t4, s2
	li	a0, 0
	ld	a1, 40(s10)
	addi	a1, a1, 4
	sd	a1, 40(s10)
	li	a1, 1
	j	.Lnoise_BB7_60
.Lnoise_BB7_85:
	slli	a2, a2, 2
	add	a2, a2, s1
	lw	s3, 0(a2)
	addi	a2, a0, 12
	li	a3, 62
	sd	a2, 304(s10)
	sd	t4, 1888(sp)
	bne	a1, a3, .Lnoise_BB7_87
	ld	a2, 32(s10)
	ld	a1, 40(s10)
	mv	a0, s10
	mv	a3, s1
	mv	s8, t5
	mv	s9, t6
	mv	s2, ra
	call	noise_rand_chacha_guts_refill4
	mv	ra, s2
	mv	t6, s9
	mv	t5, s8
	ld	t4, 1888(sp)
	ld	a1, 40(s10)
	lw	s8, 48(s10)
	li	a0, 1
	addi	a1, a1, 4
	sd	a1, 40(s10)
	addi	a1, a0, 1
	j	.Lnoise_BB7_61
.Lnoise_BB7_87:
	slli	a1, a2, 2
	add	a1, a1, s1
	lw	s8, 0(a1)
	addi	a1, a0, 13
	li	a3, 51
	sd	a1, 304(s10)
	bltu	a0, a3, .Lnoise_BB7_89
	ld	a2, 32(s10)
	ld	a1, 40(s10)
	mv	a0, s10
	mv	a3, s1
	mv	s9, t5
	sd	t6, 1880(sp)
	mv	s2, ra
	call	noise_rand_chacha_guts_refill4
	mv	ra, s2
	ld	t6, 1880(sp)
	mv	t5, s9
	ld	t4, 1888(sp)
	li	a0, 0
	ld	a1, 40(s10)
	addi	a1, a1, 4
	sd	a1, 40(s10)
	li	a1, 1
	j	.Lnoise_BB7_61
.Lnoise_BB7_89:
	slli	a1, a1, 2
	add	a1, a1, s1
	lw	s2, 0(a1)
	addi	a1, a0, 14
	li	a3, 62
	sd	a1, 304(s10)
	bne	a2, a3, .Lnoise_BB7_91
	ld	a2, 32(s10)
	ld	a1, 40(s10)
	mv	a0, s10
	mv	a3, s1
	mv	s9, t5
	sd	t6, 1880(sp)
	sd	ra, 1872(sp)
	call	noise_rand_chacha_guts_refill4
	ld	ra, 1872(sp)
	ld	t6, 1880(sp)
	mv	t5, s9
	ld	t4, 1888(sp)
	ld	a0, 40(s10)
	lw	s9, 48(s10)
	addi	a0, a0, 4
	sd	a0, 40(s10)
	li	a1, 1
	j	.Lnoise_BB7_62
.Lnoise_BB7_91:
	slli	a1, a1, 2
	add	a1, a1, s1
	lw	s9, 0(a1)
	addi	a1, a0, 15
	li	a2, 49
	sd	a1, 304(s10)
	bltu	a0, a2, .Lnoise_BB7_63
	ld	a2, 32(s10)
	ld	a1, 40(s10)
	mv	a0, s10
	mv	a3, s1
	sd	t5, 1864(sp)
	sd	t6, 1880(sp)
	sd	ra, 1872(sp)
	call	noise_rand_chacha_guts_refill4
	ld	ra, 1872(sp)
	ld	t6, 1880(sp)
	ld	t5, 1864(sp)
	ld	t4, 1888(sp)
	li	a1, 0
	ld	a0, 40(s10)
	addi	a0, a0, 4
	sd	a0, 40(s10)
	j	.Lnoise_BB7_63
.Lnoise_BB7_93:
	ld	a0, 24(sp)
	andi	a1, a0, 63
	ld	s1, 1904(sp)
	beqz	a1, .Lnoise_BB7_107
	sd	a1, 1912(sp)
	andi	a0, a0, -64
	sd	a0, 1896(sp)
	sd	zero, 1960(sp)
	sd	zero, 1968(sp)
	sd	zero, 1976(sp)
	sd	zero, 1984(sp)
	ld	a0, 304(s10)
	li	a1, 64
	sd	zero, 1928(sp)
	sd	zero, 1936(sp)
	sd	zero, 1944(sp)
	sd	zero, 1952(sp)
	bltu	a0, a1, .Lnoise_BB7_96
	ld	a2, 32(s10)
	ld	a1, 40(s10)
	addi	s1, s10, 48
	mv	a0, s10
	mv	a3, s1
	call	noise_rand_chacha_guts_refill4
	ld	a0, 40(s10)
	lw	a7, 48(s10)
	addi	a0, a0, 4
	sd	a0, 40(s10)
	li	a1, 1
	j	.Lnoise_BB7_98
.Lnoise_BB7_96:
	slli	a1, a0, 2
	add	a1, a1, s1
	lw	a4, 0(a1)
	addi	a1, a0, 1
	li	a2, 63
	sd	a1, 304(s10)
	bne	a0, a2, .Lnoise_BB7_108
	ld	a2, 32(s10)
	ld	a1, 40(s10)
	mv	a0, s10
	mv	a3, s1
	mv	s0, a4
	call	noise_rand_chacha_guts_refill4
	mv	a7, s0
	li	a1, 0
	ld	a0, 40(s10)
	addi	a0, a0, 4
	sd	a0, 40(s10)
.Lnoise_BB7_98:
	slli	a0, a1, 2
	add	a0, a0, s10
	lw	t1, 48(a0)
	lw	a6, 52(a0)
	addiw	a2, a1, 2
	sd	a2, 304(s10)
	addi	a0, a0, 56
	addi	a1, a1, 3
.Lnoise_BB7_99:
	lw	a5, 0(a0)
	sd	a1, 304(s10)
	slli	a0, a1, 2
	add	a0, a0, s1
	lw	t0, 0(a0)
	addi	a2, a1, 1
	sd	a2, 304(s10)
	addi	a0, a0, 4
	addi	a1, a1, 2
.Lnoise_BB7_100:
	lw	s0, 0(a0)
	sd	a1, 304(s10)
	slli	a0, a1, 2
	add	a0, a0, s1
	lw	s4, 0(a0)
	addi	a2, a1, 1
	sd	a2, 304(s10)
	addi	a0, a0, 4
	addi	a1, a1, 2
.Lnoise_BB7_101:
	lw	s5, 0(a0)
	sd	a1, 304(s10)
	slli	a0, a1, 2
	add	a0, a0, s1
	lw	s3, 0(a0)
	addi	a2, a1, 1
	sd	a2, 304(s10)
	addi	a0, a0, 4
	addi	a1, a1, 2
.Lnoise_BB7_102:
	lw	s6, 0(a0)
	sd	a1, 304(s10)
	slli	a0, a1, 2
	add	a0, a0, s1
	lw	s7, 0(a0)
	addi	a2, a1, 1
	sd	a2, 304(s10)
	addi	a0, a0, 4
	addi	a1, a1, 2
.Lnoise_BB7_103:
	lw	s11, 0(a0)
	sd	a1, 304(s10)
	slli	a0, a1, 2
	add	a0, a0, s1
	lw	s8, 0(a0)
	addi	a2, a1, 1
	sd	a2, 304(s10)
	addi	a0, a0, 4
	addi	a1, a1, 2
.Lnoise_BB7_104:
	lw	s9, 0(a0)
	sd	a1, 304(s10)
	slli	a0, a1, 2
	add	a0, a0, s1
	lw	s2, 0(a0)
	addi	a1, a1, 1
	sd	a1, 304(s10)
.Lnoise_BB7_105:
	slli	a0, a1, 2
	add	a0, a0, s1
	addi	a2, a1, 1
	lw	a1, 0(a0)
	sd	a2, 304(s10)
	ld	a4, 32(sp)
	ld	a3, 1896(sp)
	add	a0, a4, a3
	ld	a2, 1912(sp)
	add	a2, a2, a3
	srli	a3, a7, 16
	add	a2, a2, a4
	srli	a4, a7, 8
	sb	a4, 1929(sp)
	sb	a7, 1928(sp)
	srli	a4, a7, 24
	sb	a3, 1930(sp)
	srli	a3, t1, 16
	sb	a4, 1931(sp)
	srli	a4, t1, 8
	sb	a4, 1933(sp)
	sb	t1, 1932(sp)
	srli	a4, t1, 24
	sb	a3, 1934(sp)
	srli	a3, a6, 16
	sb	a4, 1935(sp)
	srli	a4, a6, 8
	sb	a4, 1937(sp)
	sb	a6, 1936(sp)
	srli	a4, a6, 24
	sb	a3, 1938(sp)
	srli	a3, a5, 16
	sb	a4, 1939(sp)
	srli	a4, a5, 8
	sb	a4, 1941(sp)
	sb	a5, 1940(sp)
	srli	a4, a5, 24
	sb	a3, 1942(sp)
	srli	a3, t0, 16
	sb	a4, 1943(sp)
	srli	a4, t0, 8
	sb	a4, 1945(sp)
	sb	t0, 1944(sp)
	srli	a4, t0, 24
	sb	a3, 1946(sp)
	srli	a3, s0, 16
	sb	a4, 1947(sp)
	srli	a4, s0, 8
	sb	a4, 1949(sp)
	sb	s0, 1948(sp)
	srli	a4, s0, 24
	sb	a3, 1950(sp)
	srli	a3, s4, 16
	sb	a4, 1951(sp)
	srli	a4, s4, 8
	sb	a4, 1953(sp)
	sb	s4, 1952(sp)
	srli	a4, s4, 24
	sb	a3, 1954(sp)
	srli	a3, s5, 16
	sb	a4, 1955(sp)
	srli	a4, s5, 8
	sb	a4, 1957(sp)
	sb	s5, 1956(sp)
	srli	a4, s5, 24
	sb	a3, 1958(sp)
	srli	a3, s3, 16
	sb	a4, 1959(sp)
	srli	a4, s3, 8
	sb	a4, 1961(sp)
	sb	s3, 1960(sp)
	srli	a4, s3, 24
	sb	a3, 1962(sp)
	srli	a3, s6, 16
	sb	a4, 1963(sp)
	srli	a4, s6, 8
	sb	a4, 1965(sp)
	sb	s6, 1964(sp)
	srli	a4, s6, 24
	sb	a3, 1966(sp)
	srli	a3, s7, 16
	sb	a4, 1967(sp)
	srli	a4, s7, 8
	sb	a4, 1969(sp)
	sb	s7, 1968(sp)
	srli	a4, s7, 24
	sb	a3, 1970(sp)
	srli	a3, s11, 16
	sb	a4, 1971(sp)
	srli	a4, s11, 8
	sb	a4, 1973(sp)
	sb	s11, 1972(sp)
	srli	s0, s11, 24
	sb	a3, 1974(sp)
	srli	a3, s8, 16
	sb	s0, 1975(sp)
	srli	a4, s8, 8
	sb	a4, 1977(sp)
	sb	s8, 1976(sp)
	srli	a4, s8, 24
	sb	a3, 1978(sp)
	srli	a3, s9, 16
	sb	a4, 1979(sp)
	srli	a4, s9, 8
	sb	a4, 1981(sp)
	sb	s9, 1980(sp)
	srli	a4, s9, 24
	sb	a3, 1982(sp)
	srli	a3, s2, 16
	sb	a4, 1983(sp)
	srli	a4, s2, 8
	sb	a4, 1985(sp)
	sb	s2, 1984(sp)
	srli	s1, s2, 24
	sb	a3, 1986(sp)
	sb	s1, 1987(sp)
	srli	a3, a1, 16
	srli	a4, a1, 8
	sb	a4, 1989(sp)
	sb	a1, 1988(sp)
	srli	a1, a1, 24
	sb	a3, 1990(sp)
	sb	a1, 1991(sp)
	addi	a1, sp, 1928
.Lnoise_BB7_106:
	lbu	a3, 0(a1)
	lbu	a4, 0(a0)
	xor	a3, a3, a4
	sb	a3, 0(a0)
	addi	a0, a0, 1
	addi	a1, a1, 1
	bne	a0, a2, .Lnoise_BB7_106
.Lnoise_BB7_107:
	addi	sp, sp, 1600
	.cfi_def_cfa_offset 496
	ld	ra, 488(sp)
	ld	s0, 480(sp)
	ld	s1, 472(sp)
	ld	s2, 464(sp)
	ld	s3, 456(sp)
	ld	s4, 448(sp)
	ld	s5, 440(sp)
	ld	s6, 432(sp)
	ld	s7, 424(sp)
	ld	s8, 416(sp)
	ld	s9, 408(sp)
	ld	s10, 400(sp)
	ld	s11, 392(sp)
	.cfi_restore ra
	.cfi_restore s0
	.cfi_restore s1
	.cfi_restore s2
	.cfi_restore s3
	.cfi_restore s4
	.cfi_restore s5
	.cfi_restore s6
	.cfi_restore s7
	.cfi_restore s8
	.cfi_restore s9
	.cfi_restore s10
	.cfi_restore s11
	addi	sp, sp, 496
	.cfi_def_cfa_offset 0
	ret
.Lnoise_BB7_108:
	.cfi_restore_state
	slli	a1, a1, 2
	add	a1, a1, s1
	lw	s0, 0(a1)
	addi	a1, a0, 2
	li	a2, 62
	sd	a1, 304(s10)
	bltu	a0, a2, .Lnoise_BB7_110
	mv	s2, s0
	mv	s0, a4
	ld	a2, 32(s10)
	ld	a1, 40(s10)
	mv	a0, s10
	mv	a3, s1
	call	noise_rand_chacha_guts_refill4
	ld	a0, 40(s10)
	lw	a6, 48(s10)
	addi	a0, a0, 4
	sd	a0, 40(s10)
	li	a1, 1
	sd	a1, 304(s10)
	j	.Lnoise_BB7_112
.Lnoise_BB7_110:
	slli	a2, a1, 2
	add	a2, a2, s1
	lw	a5, 0(a2)
	addi	a2, a0, 3
	li	a3, 61
	sd	a2, 304(s10)
	bne	a0, a3, .Lnoise_BB7_113
	mv	s2, s0
	mv	s0, a4
	ld	a2, 32(s10)
	ld	a1, 40(s10)
	mv	a0, s10
	mv	a3, s1
	mv	s3, a5
	call	noise_rand_chacha_guts_refill4
	mv	a6, s3
	li	a1, 0
	ld	a0, 40(s10)
	addi	a0, a0, 4
	sd	a0, 40(s10)
.Lnoise_BB7_112:
	slli	a0, a1, 2
	add	a0, a0, s1
	addi	a1, a1, 1
	mv	a7, s0
	mv	t1, s2
	j	.Lnoise_BB7_99
.Lnoise_BB7_113:
	slli	a2, a2, 2
	add	a2, a2, s1
	lw	a6, 0(a2)
	addi	a2, a0, 4
	li	a3, 62
	sd	a2, 304(s10)
	bne	a1, a3, .Lnoise_BB7_115
	mv	s4, a6
	mv	s3, a5
	mv	s2, s0
	mv	s5, a4
	ld	a2, 32(s10)
	ld	a1, 40(s10)
	mv	a0, s10
	mv	a3, s1
	call	noise_rand_chacha_guts_refill4
	ld	a0, 40(s10)
	lw	t0, 48(s10)
	addi	a0, a0, 4
	sd	a0, 40(s10)
	li	a1, 1
	sd	a1, 304(s10)
	j	.Lnoise_BB7_117
.Lnoise_BB7_115:
	slli	a1, a2, 2
	add	a1, a1, s1
	lw	a7, 0(a1)
	addi	a1, a0, 5
	li	a3, 59
	sd	a1, 304(s10)
	bltu	a0, a3, .Lnoise_BB7_118
	mv	s4, a6
	mv	s3, a5
	mv	s2, s0
	mv	s5, a4
	ld	a2, 32(s10)
	ld	a1, 40(s10)
	mv	a0, s10
	mv	a3, s1
	mv	s0, a7
	call	noise_rand_chacha_guts_refill4
	mv	t0, s0
	li	a1, 0
	ld	a0, 40(s10)
	addi	a0, a0, 4
	sd	a0, 40(s10)
.Lnoise_BB7_117:
	slli	a0, a1, 2
	add	a0, a0, s1
	addi	a1, a1, 1
	mv	a7, s5
	mv	t1, s2
	mv	a6, s3
	mv	a5, s4
	j	.Lnoise_BB7_100
.Lnoise_BB7_118:
	slli	a1, a1, 2
	add	a1, a1, s1
	lw	s9, 0(a1)
	addi	a1, a0, 6
	li	a3, 62
	sd	a1, 304(s10)
	bne	a2, a3, .Lnoise_BB7_120
	mv	s6, a7
	mv	s5, a6
	mv	s3, a5
	mv	s2, s0
	mv	s0, a4
	ld	a2, 32(s10)
	ld	a1, 40(s10)
	mv	a0, s10
	mv	a3, s1
	call	noise_rand_chacha_guts_refill4
	ld	a0, 40(s10)
	lw	s4, 48(s10)
	addi	a0, a0, 4
	sd	a0, 40(s10)
	li	a1, 1
	sd	a1, 304(s10)
	j	.Lnoise_BB7_122
.Lnoise_BB7_120:
	slli	a2, a1, 2
	add	a2, a2, s1
	lw	s4, 0(a2)
	addi	a2, a0, 7
	li	a3, 57
	sd	a2, 304(s10)
	bltu	a0, a3, .Lnoise_BB7_123
	mv	s6, a7
	mv	s5, a6
	mv	s3, a5
	mv	s2, s0
	mv	s0, a4
	ld	a2, 32(s10)
	ld	a1, 40(s10)
	mv	a0, s10
	mv	a3, s1
	call	noise_rand_chacha_guts_refill4
	li	a1, 0
	ld	a0, 40(s10)
	addi	a0, a0, 4
	sd	a0, 40(s10)
.Lnoise_BB7_122:
	slli	a0, a1, 2
	add	a0, a0, s1
	addi	a1, a1, 1
	mv	a7, s0
	mv	t1, s2
	mv	a6, s3
	mv	a5, s5
	mv	t0, s6
	mv	s0, s9
	j	.Lnoise_BB7_101
.Lnoise_BB7_123:
	slli	a2, a2, 2
	add	a2, a2, s1
	lw	s5, 0(a2)
	addi	a2, a0, 8
	li	a3, 62
	sd	a2, 304(s10)
	bne	a1, a3, .Lnoise_BB7_125
	mv	s8, a7
	mv	s7, a6
	mv	s6, a5
	mv	s2, s0
	mv	s0, a4
	ld	a2, 32(s10)
	ld	a1, 40(s10)
	mv	a0, s10
	mv	a3, s1
	call	noise_rand_chacha_guts_refill4
	ld	a0, 40(s10)
	lw	s3, 48(s10)
	addi	a0, a0, 4
	sd	a0, 40(s10)
	li	a1, 1
	sd	a1, 304(s10)
	j	.Lnoise_BB7_127
.Lnoise_BB7_125:
	slli	a1, a2, 2
	add	a1, a1, s1
	lw	s3, 0(a1)
	addi	a1, a0, 9
	li	a3, 55
	sd	a1, 304(s10)
	bltu	a0, a3, .Lnoise_BB7_128
	mv	s8, a7
	mv	s7, a6
	mv	s6, a5
	mv	s2, s0
	mv	s0, a4
	ld	a2, 32(s10)
	ld	a1, 40(s10)
	mv	a0, s10
	mv	a3, s1
	call	noise_rand_chacha_guts_refill4
	li	a1, 0
	ld	a0, 40(s10)
	addi	a0, a0, 4
	sd	a0, 40(s10)
.Lnoise_BB7_127:
	slli	a0, a1, 2
	add	a0, a0, s1
	addi	a1, a1, 1
	mv	a7, s0
	mv	t1, s2
	mv	a6, s6
	mv	a5, s7
	mv	t0, s8
	mv	s0, s9
	j	.Lnoise_BB7_102
.Lnoise_BB7_128:
	slli	a1, a1, 2
	add	a1, a1, s1
	lw	s6, 0(a1)
	addi	a1, a0, 10
	li	a3, 62
	sd	a1, 304(s10)
	sd	s9, 1888(sp)
	bne	a2, a3, .Lnoise_BB7_130
	mv	s11, a7
	mv	s9, a6
	mv	s8, a5
	mv	s2, s0
	mv	s0, a4
	ld	a2, 32(s10)
	ld	a1, 40(s10)
	mv	a0, s10
	mv	a3, s1
	call	noise_rand_chacha_guts_refill4
	ld	a0, 40(s10)
	lw	s7, 48(s10)
	addi	a0, a0, 4
	sd	a0, 40(s10)
	li	a1, 1
	sd	a1, 304(s10)
	j	.Lnoise_BB7_132
.Lnoise_BB7_130:
	slli	a2, a1, 2
	add	a2, a2, s1
	lw	s7, 0(a2)
	addi	a2, a0, 11
	li	a3, 53
	sd	a2, 304(s10)
	bltu	a0, a3, .Lnoise_BB7_133
	mv	s11, a7
	mv	s9, a6
	mv	s8, a5
	mv	s2, s0
	mv	s0, a4
	ld	a2, 32(s10)
	ld	a1, 40(s10)
	mv	a0, s10
	mv	a3, s1
	call	noise_rand_chacha_guts_refill4
	li	a1, 0
	ld	a0, 40(s10)
	addi	a0, a0, 4
	sd	a0, 40(s10)
.Lnoise_BB7_132:
	slli	a0, a1, 2
	add	a0, a0, s1
	addi	a1, a1, 1
	mv	a7, s0
	mv	t1, s2
	mv	a6, s8
	mv	a5, s9
	mv	t0, s11
	ld	s0, 1888(sp)
	j	.Lnoise_BB7_103
.Lnoise_BB7_133:
	sd	a7, 1856(sp)
	sd	a6, 1864(sp)
	sd	a5, 1872(sp)
	sd	a4, 1880(sp)
	slli	a2, a2, 2
	add	a2, a2, s1
	lw	s11, 0(a2)
	addi	a2, a0, 12
	li	a3, 62
	sd	a2, 304(s10)
	bne	a1, a3, .Lnoise_BB7_135
	ld	a2, 32(s10)
	ld	a1, 40(s10)
	mv	a0, s10
	mv	a3, s1
	call	noise_rand_chacha_guts_refill4
	ld	a0, 40(s10)
	lw	s8, 48(s10)
	addi	a0, a0, 4
	sd	a0, 40(s10)
	li	a1, 1
	sd	a1, 304(s10)
	j	.Lnoise_BB7_137
.Lnoise_BB7_135:
	slli	a1, a2, 2
	add	a1, a1, s1
	lw	s8, 0(a1)
	addi	a1, a0, 13
	li	a3, 51
	sd	a1, 304(s10)
	bltu	a0, a3, .Lnoise_BB7_138
	ld	a2, 32(s10)
	ld	a1, 40(s10)
	mv	a0, s10
	mv	a3, s1
	call	noise_rand_chacha_guts_refill4
	li	a1, 0
	ld	a0, 40(s10)
	addi	a0, a0, 4
	sd	a0, 40(s10)
.Lnoise_BB7_137:
	slli	a0, a1, 2
	add	a0, a0, s1
	addi	a1, a1, 1
	ld	a7, 1880(sp)
	mv	t1, s0
	ld	a6, 1872(sp)
	ld	a5, 1864(sp)
	ld	t0, 1856(sp)
	ld	s0, 1888(sp)
	j	.Lnoise_BB7_104
.Lnoise_BB7_138:
	slli	a1, a1, 2
	add	a1, a1, s1
	lw	s9, 0(a1)
	addi	a1, a0, 14
	li	a3, 62
	sd	a1, 304(s10)
	bne	a2, a3, .Lnoise_BB7_140
	ld	s10, 1920(sp)
	ld	a2, 32(s10)
	ld	a1, 40(s10)
	mv	a0, s10
	ld	s1, 1904(sp)
	mv	a3, s1
	call	noise_rand_chacha_guts_refill4
	ld	a0, 40(s10)
	lw	s2, 48(s10)
	addi	a0, a0, 4
	sd	a0, 40(s10)
	li	a1, 1
	sd	a1, 304(s10)
	j	.Lnoise_BB7_143
.Lnoise_BB7_140:
	slli	a1, a1, 2
	ld	a2, 1904(sp)
	add	a1, a1, a2
	lw	s2, 0(a1)
	addi	a1, a0, 15
	li	a2, 49
	ld	a3, 1920(sp)
	sd	a1, 304(a3)
	bltu	a0, a2, .Lnoise_BB7_142
	ld	s10, 1920(sp)
	ld	a2, 32(s10)
	ld	a1, 40(s10)
	mv	a0, s10
	ld	s1, 1904(sp)
	mv	a3, s1
	call	noise_rand_chacha_guts_refill4
	li	a1, 0
	ld	a0, 40(s10)
	addi	a0, a0, 4
	sd	a0, 40(s10)
	j	.Lnoise_BB7_143
.Lnoise_BB7_142:
	ld	s10, 1920(sp)
	ld	s1, 1904(sp)
.Lnoise_BB7_143:
	ld	a7, 1880(sp)
	mv	t1, s0
	ld	a6, 1872(sp)
	ld	a5, 1864(sp)
	ld	t0, 1856(sp)
	ld	s0, 1888(sp)
	j	.Lnoise_BB7_105
.Lnoise_func_end7:
	.size	noise_noise_aead_keystream_apply, .Lnoise_func_end7-noise_noise_aead_keystream_apply
	.cfi_endproc

	.section	".text.noise_state::cipher::CipherState::encrypt","ax",@progbits
	.p2align	1
	.type	noise_noise_state_cipher_CipherState_encrypt,@function
noise_noise_state_cipher_CipherState_encrypt:
	.cfi_startproc
	addi	sp, sp, -512
	.cfi_def_cfa_offset 512
	sd	ra, 504(sp)
	sd	s0, 496(sp)
	sd	s1, 488(sp)
	sd	s2, 480(sp)
	sd	s3, 472(sp)
	sd	s4, 464(sp)
	sd	s5, 456(sp)
	sd	s6, 448(sp)
	sd	s7, 440(sp)
	sd	s8, 432(sp)
	sd	s9, 424(sp)
	sd	s10, 416(sp)
	sd	s11, 408(sp)
	.cfi_offset ra, -8
	.cfi_offset s0, -16
	.cfi_offset s1, -24
	.cfi_offset s2, -32
	.cfi_offset s3, -40
	.cfi_offset s4, -48
	.cfi_offset s5, -56
	.cfi_offset s6, -64
	.cfi_offset s7, -72
	.cfi_offset s8, -80
	.cfi_offset s9, -88
	.cfi_offset s10, -96
	.cfi_offset s11, -104
	lbu	s1, 0(a1)
	li	s0, 1
	bne	s1, s0, .Lnoise_BB8_4
	ld	s11, 40(a1)
	li	s0, -1
	beq	s11, s0, .Lnoise_BB8_5
	lui	s0, 16
	addi	s0, s0, -16
	bltu	a5, s0, .Lnoise_BB8_7
	li	a1, 1
	li	a2, 3
	sb	zero, 14(a0)
	sb	zero, 15(a0)
	sb	zero, 10(a0)
	sb	zero, 11(a0)
	sb	zero, 12(a0)
	sb	zero, 13(a0)
	sb	a1, 0(a0)
	sb	a2, 1(a0)
	j	.Lnoise_BB8_6
.Lnoise_BB8_4:
	srli	a1, a5, 16
	snez	a1, a1
	neg	a2, a1
	addi	a3, a1, -1
	andi	a6, a2, 3
	and	a3, a3, a5
	srli	a4, a3, 56
	srli	a5, a3, 48
	srli	s1, a3, 40
	srli	s0, a3, 32
	srli	a2, a3, 24
	sb	a5, 14(a0)
	sb	a4, 15(a0)
	srli	a4, a3, 16
	sb	a4, 10(a0)
	sb	a2, 11(a0)
	sb	s0, 12(a0)
	sb	s1, 13(a0)
	srli	a2, a3, 8
	sb	a1, 0(a0)
	sb	a6, 1(a0)
	sb	a3, 8(a0)
	sb	a2, 9(a0)
	j	.Lnoise_BB8_8
.Lnoise_BB8_5:
	li	a1, 1
	sb	zero, 14(a0)
	sb	zero, 15(a0)
	sb	zero, 10(a0)
	sb	zero, 11(a0)
	sb	zero, 12(a0)
	sb	zero, 13(a0)
	sb	a1, 0(a0)
	sb	zero, 1(a0)
.Lnoise_BB8_6:
	sb	zero, 8(a0)
	sb	zero, 9(a0)
	j	.Lnoise_BB8_8
.Lnoise_BB8_7:
	lbu	a6, 1(a1)
	lbu	a7, 2(a1)
	lbu	t1, 3(a1)
	lbu	s0, 4(a1)
	lbu	t2, 5(a1)
	lbu	t3, 6(a1)
	lbu	t4, 7(a1)
	lbu	t5, 8(a1)
	lbu	t6, 9(a1)
	lbu	s2, 10(a1)
	lbu	s3, 11(a1)
	lbu	s4, 12(a1)
	lbu	t0, 13(a1)
	lbu	s5, 14(a1)
	lbu	s6, 15(a1)
	lbu	s7, 16(a1)
	slli	s0, s0, 24
	slli	t1, t1, 16
	slli	a7, a7, 8
	or	a6, a7, a6
	or	a7, t1, s0
	lbu	t1, 17(a1)
	lbu	s8, 18(a1)
	lbu	s9, 19(a1)
	lbu	s10, 20(a1)
	slli	t5, t5, 24
	slli	t4, t4, 16
	slli	t3, t3, 8
	slli	s4, s4, 24
	slli	s3, s3, 16
	slli	s2, s2, 8
	or	t2, t3, t2
	or	t3, t4, t5
	or	t4, s2, t6
	or	t5, s3, s4
	lbu	t6, 21(a1)
	lbu	s2, 22(a1)
	lbu	s3, 23(a1)
	lbu	ra, 24(a1)
	slli	s7, s7, 24
	slli	s6, s6, 16
	slli	s5, s5, 8
	slli	s10, s10, 24
	slli	s9, s9, 16
	slli	s8, s8, 8
	or	t0, s5, t0
	or	s4, s6, s7
	or	t1, s8, t1
	or	s5, s9, s10
	lbu	s6, 25(a1)
	lbu	s7, 26(a1)
	lbu	s1, 27(a1)
	lbu	s0, 28(a1)
	slli	ra, ra, 24
	slli	s3, s3, 16
	slli	s2, s2, 8
	slli	s0, s0, 24
	slli	s1, s1, 16
	slli	s7, s7, 8
	or	t6, s2, t6
	or	s2, s3, ra
	or	s3, s7, s6
	or	s6, s1, s0
	lbu	s1, 30(a1)
	lbu	s0, 29(a1)
	lbu	s7, 32(a1)
	lbu	s8, 31(a1)
	slli	s1, s1, 8
	or	s0, s0, s1
	slli	s7, s7, 24
	slli	s8, s8, 16
	or	s1, s8, s7
	or	s8, a6, a7
	or	s9, t2, t3
	or	s10, t4, t5
	or	s7, t0, s4
	or	s4, t1, s5
	or	s2, t6, s2
	or	s3, s3, s6
	or	s0, s0, s1
	addi	s6, sp, 128
	sd	a2, 16(sp)
	li	a2, 256
	mv	s5, a0
	mv	a0, s6
	sd	a1, 24(sp)
	li	a1, 0
	sd	a5, 0(sp)
	mv	s1, a4
	sd	a3, 8(sp)
	call	memset
	sw	s8, 80(sp)
	sw	s9, 84(sp)
	sw	s10, 88(sp)
	sw	s7, 92(sp)
	sw	s4, 96(sp)
	sw	s2, 100(sp)
	sw	s3, 104(sp)
	sw	s0, 108(sp)
	sd	s11, 112(sp)
	sd	zero, 120(sp)
	li	a0, 64
	sd	a0, 384(sp)
	addi	a0, sp, 80
	li	a1, 0
	mv	a2, s11
	mv	a3, s6
	call	noise_rand_chacha_guts_refill4
	ld	a0, 120(sp)
	lw	a1, 128(sp)
	lw	a2, 132(sp)
	lw	a3, 136(sp)
	li	a4, 16
	sd	a4, 384(sp)
	addi	a0, a0, 4
	srli	a4, a3, 16
	srli	a5, a1, 16
	sd	a0, 120(sp)
	srli	a0, a1, 8
	sb	a1, 48(sp)
	sb	a0, 49(sp)
	srli	a0, a3, 8
	srli	a1, a1, 24
	sb	a5, 50(sp)
	srli	a5, a2, 24
	sb	a1, 51(sp)
	srli	a1, a2, 8
	sb	a2, 52(sp)
	srli	a2, a2, 16
	sb	a1, 53(sp)
	sb	a2, 54(sp)
	sb	a5, 55(sp)
	sb	a3, 56(sp)
	sb	a0, 57(sp)
	lw	a0, 140(sp)
	lw	a1, 144(sp)
	lw	a2, 148(sp)
	lw	a5, 152(sp)
	srli	a3, a3, 24
	sb	a4, 58(sp)
	srli	a4, a0, 16
	sb	a3, 59(sp)
	srli	a3, a0, 8
	sb	a3, 61(sp)
	sb	a0, 60(sp)
	srli	a0, a0, 24
	sb	a4, 62(sp)
	srli	a3, a1, 16
	sb	a0, 63(sp)
	srli	a0, a1, 8
	sb	a0, 65(sp)
	sb	a1, 64(sp)
	srli	a1, a1, 24
	sb	a3, 66(sp)
	srli	a0, a2, 16
	sb	a1, 67(sp)
	srli	a1, a2, 8
	sb	a1, 69(sp)
	sb	a2, 68(sp)
	srli	a2, a2, 24
	sb	a0, 70(sp)
	srli	a0, a5, 16
	sb	a2, 71(sp)
	srli	a1, a5, 8
	sb	a1, 73(sp)
	lw	a1, 156(sp)
	sb	a5, 72(sp)
	srli	a5, a5, 24
	sb	a0, 74(sp)
	srli	a0, a1, 16
	sb	a5, 75(sp)
	srli	a2, a1, 8
	sb	a2, 77(sp)
	sb	a1, 76(sp)
	srli	a1, a1, 24
	sb	a0, 78(sp)
	sb	a1, 79(sp)
	addi	a0, sp, 80
	mv	a1, s1
	ld	s2, 0(sp)
	mv	a2, s2
	call	noise_noise_aead_keystream_apply
	addi	a0, sp, 392
	addi	a1, sp, 48
	ld	a2, 16(sp)
	ld	a3, 8(sp)
	mv	a4, s1
	mv	s3, s1
	mv	a5, s2
	call	noise_noise_aead_authenticator_tag
	lbu	a0, 400(sp)
	lbu	a1, 401(sp)
	lbu	a2, 402(sp)
	lbu	a3, 403(sp)
	lbu	a6, 404(sp)
	lbu	a5, 405(sp)
	lbu	s0, 406(sp)
	lbu	a4, 407(sp)
	slli	a1, a1, 8
	slli	a2, a2, 16
	slli	a3, a3, 24
	or	a7, a1, a0
	or	t0, a3, a2
	lbu	a1, 392(sp)
	lbu	a3, 393(sp)
	lbu	a0, 394(sp)
	lbu	a2, 395(sp)
	slli	a5, a5, 8
	slli	s0, s0, 16
	slli	a4, a4, 24
	slli	a3, a3, 8
	slli	a0, a0, 16
	slli	a2, a2, 24
	or	a5, a5, a6
	or	a4, a4, s0
	or	a1, a1, a3
	or	a0, a0, a2
	lbu	a2, 397(sp)
	lbu	a3, 396(sp)
	lbu	s0, 398(sp)
	lbu	s1, 399(sp)
	slli	a2, a2, 8
	or	a2, a2, a3
	slli	s0, s0, 16
	slli	s1, s1, 24
	or	s0, s0, s1
	or	a3, t0, a7
	or	a4, a4, a5
	or	a0, a0, a1
	or	a2, a2, s0
	slli	a4, a4, 32
	or	a3, a3, a4
	addi	s0, s2, 16
	slli	a2, a2, 32
	or	a0, a0, a2
	sd	a0, 32(sp)
	sd	a3, 40(sp)
	add	a0, s3, s2
	addi	a1, sp, 32
	li	a2, 16
	call	memcpy
	ld	a5, 24(sp)
	ld	a0, 40(a5)
	srli	a1, s0, 56
	srli	a2, s0, 48
	srli	a3, s0, 40
	srli	a4, s0, 32
	addi	a0, a0, 1
	sd	a0, 40(a5)
	srli	a0, s0, 24
	srli	a5, s0, 16
	sb	a2, 14(s5)
	sb	a1, 15(s5)
	srli	a1, s0, 8
	sb	a5, 10(s5)
	sb	a0, 11(s5)
	sb	a4, 12(s5)
	sb	a3, 13(s5)
	sb	zero, 0(s5)
	sb	zero, 1(s5)
	sb	s0, 8(s5)
	sb	a1, 9(s5)
.Lnoise_BB8_8:
	ld	ra, 504(sp)
	ld	s0, 496(sp)
	ld	s1, 488(sp)
	ld	s2, 480(sp)
	ld	s3, 472(sp)
	ld	s4, 464(sp)
	ld	s5, 456(sp)
	ld	s6, 448(sp)
	ld	s7, 440(sp)
	ld	s8, 432(sp)
	ld	s9, 424(sp)
	ld	s10, 416(sp)
	ld	s11, 408(sp)
	.cfi_restore ra
	.cfi_restore s0
	.cfi_restore s1
	.cfi_restore s2
	.cfi_restore s3
	.cfi_restore s4
	.cfi_restore s5
	.cfi_restore s6
	.cfi_restore s7
	.cfi_restore s8
	.cfi_restore s9
	.cfi_restore s10
	.cfi_restore s11
	addi	sp, sp, 512
	.cfi_def_cfa_offset 0
	ret
.Lnoise_func_end8:
	.size	noise_noise_state_cipher_CipherState_encrypt, .Lnoise_func_end8-noise_noise_state_cipher_CipherState_encrypt
	.cfi_endproc

	.section	".text.noise_state::cipher::CipherState::rekey","ax",@progbits
	.p2align	1
	.type	noise_noise_state_cipher_CipherState_rekey,@function
noise_noise_state_cipher_CipherState_rekey:
	.cfi_startproc
	addi	sp, sp, -448
	.cfi_def_cfa_offset 448
	sd	ra, 440(sp)
	sd	s0, 432(sp)
	sd	s1, 424(sp)
	sd	s2, 416(sp)
	sd	s3, 408(sp)
	sd	s4, 400(sp)
	sd	s5, 392(sp)
	sd	s6, 384(sp)
	sd	s7, 376(sp)
	sd	s8, 368(sp)
	sd	s9, 360(sp)
	.cfi_offset ra, -8
	.cfi_offset s0, -16
	.cfi_offset s1, -24
	.cfi_offset s2, -32
	.cfi_offset s3, -40
	.cfi_offset s4, -48
	.cfi_offset s5, -56
	.cfi_offset s6, -64
	.cfi_offset s7, -72
	.cfi_offset s8, -80
	.cfi_offset s9, -88
	.cfi_remember_state
	mv	s0, a0
	lbu	a0, 0(a0)
	li	a1, 1
	bne	a0, a1, .Lnoise_BB9_9
	lbu	a0, 1(s0)
	lbu	a1, 2(s0)
	lbu	a2, 3(s0)
	lbu	a3, 4(s0)
	sb	a0, 4(sp)
	sb	a1, 5(sp)
	sb	a2, 6(sp)
	sb	a3, 7(sp)
	lbu	a0, 5(s0)
	lbu	a1, 6(s0)
	lbu	a2, 7(s0)
	lbu	a3, 8(s0)
	sb	a0, 8(sp)
	sb	a1, 9(sp)
	sb	a2, 10(sp)
	sb	a3, 11(sp)
	lbu	a0, 9(s0)
	lbu	a1, 10(s0)
	lbu	a2, 11(s0)
	lbu	a3, 12(s0)
	sb	a0, 12(sp)
	sb	a1, 13(sp)
	sb	a2, 14(sp)
	sb	a3, 15(sp)
	lbu	a0, 13(s0)
	lbu	a1, 14(s0)
	lbu	a2, 15(s0)
	lbu	a3, 16(s0)
	sb	a0, 16(sp)
	sb	a1, 17(sp)
	sb	a2, 18(sp)
	sb	a3, 19(sp)
	lbu	a0, 17(s0)
	lbu	a1, 18(s0)
	lbu	a2, 19(s0)
	lbu	a3, 20(s0)
	sb	a0, 20(sp)
	sb	a1, 21(sp)
	sb	a2, 22(sp)
	sb	a3, 23(sp)
	lbu	a0, 21(s0)
	lbu	a1, 22(s0)
	lbu	a2, 23(s0)
	lbu	a3, 24(s0)
	sb	a0, 24(sp)
	sb	a1, 25(sp)
	sb	a2, 26(sp)
	sb	a3, 27(sp)
	lbu	a0, 25(s0)
	lbu	a1, 26(s0)
	lbu	a2, 27(s0)
	lbu	a3, 28(s0)
	sb	a0, 28(sp)
	sb	a1, 29(sp)
	sb	a2, 30(sp)
	sb	a3, 31(sp)
	lbu	a0, 29(s0)
	lbu	a1, 30(s0)
	lbu	a2, 31(s0)
	lbu	a3, 32(s0)
	sb	a0, 32(sp)
	sb	a1, 33(sp)
	sb	a2, 34(sp)
	sb	a3, 35(sp)
	li	a0, -1
	sw	a0, 40(sp)
	sw	a0, 44(sp)
	sw	zero, 36(sp)
	addi	a0, sp, 48
	addi	a1, sp, 4
	addi	a2, sp, 36
	call	noise_noise_aead_keystream_generator_apart
	ld	a0, 352(sp)
	li	a1, 64
	bltu	a0, a1, .Lnoise_BB9_3
	ld	a2, 80(sp)
	ld	a1, 88(sp)
	addi	s7, sp, 96
	addi	a0, sp, 48
	mv	a3, s7
	call	noise_rand_chacha_guts_refill4
	ld	a0, 88(sp)
	lw	s2, 96(sp)
	addi	a0, a0, 4
	sd	a0, 88(sp)
	li	a0, 1
	j	.Lnoise_BB9_5
.Lnoise_BB9_3:
	addi	s7, sp, 96
	slli	a1, a0, 2
	add	a1, a1, s7
	lw	s2, 0(a1)
	addi	a1, a0, 1
	li	a2, 63
	sd	a1, 352(sp)
	bne	a0, a2, .Lnoise_BB9_10
	ld	a2, 80(sp)
	ld	a1, 88(sp)
	addi	a0, sp, 48
	mv	a3, s7
	call	noise_rand_chacha_guts_refill4
	li	a0, 0
	ld	a1, 88(sp)
	addi	a1, a1, 4
	sd	a1, 88(sp)
.Lnoise_BB9_5:
	slli	a1, a0, 2
	addi	a2, sp, 48
	or	a1, a1, a2
	lw	s3, 48(a1)
	lw	s4, 52(a1)
	addi	a1, a1, 56
	addi	a0, a0, 3
.Lnoise_BB9_6:
	lw	s5, 0(a1)
	sd	a0, 352(sp)
	slli	a1, a0, 2
	add	a1, a1, s7
	lw	s6, 0(a1)
	addi	a2, a0, 1
	sd	a2, 352(sp)
	addi	a1, a1, 4
	addi	a0, a0, 2
.Lnoise_BB9_7:
	lw	s8, 0(a1)
	sd	a0, 352(sp)
	slli	a1, a0, 2
	addi	a0, a0, 1
	add	a1, a1, s7
	lw	s9, 0(a1)
	sd	a0, 352(sp)
	lw	s1, 4(a1)
.Lnoise_BB9_8:
	srli	a0, s2, 16
	li	a1, 1
	sb	a1, 0(s0)
	srli	a1, s2, 8
	sb	a1, 2(s0)
	sb	s2, 1(s0)
	sb	a0, 3(s0)
	srli	a0, s3, 16
	srli	a1, s2, 24
	sb	a1, 4(s0)
	srli	a1, s3, 8
	sb	a1, 6(s0)
	sb	s3, 5(s0)
	sb	a0, 7(s0)
	srli	a0, s4, 16
	srli	a1, s3, 24
	sb	a1, 8(s0)
	srli	a1, s4, 8
	sb	a1, 10(s0)
	sb	s4, 9(s0)
	sb	a0, 11(s0)
	srli	a0, s5, 16
	srli	a1, s4, 24
	sb	a1, 12(s0)
	srli	a1, s5, 8
	sb	a1, 14(s0)
	sb	s5, 13(s0)
	sb	a0, 15(s0)
	srli	a0, s6, 16
	srli	a1, s5, 24
	sb	a1, 16(s0)
	srli	a1, s6, 8
	sb	a1, 18(s0)
	sb	s6, 17(s0)
	sb	a0, 19(s0)
	srli	a0, s8, 16
	srli	a1, s6, 24
	sb	a1, 20(s0)
	srli	a1, s8, 8
	sb	a1, 22(s0)
	sb	s8, 21(s0)
	sb	a0, 23(s0)
	srli	a0, s9, 16
	srli	a1, s8, 24
	sb	a1, 24(s0)
	srli	a1, s9, 8
	sb	a1, 26(s0)
	sb	s9, 25(s0)
	sb	a0, 27(s0)
	srli	a0, s1, 16
	srli	a1, s9, 24
	sb	a1, 28(s0)
	srli	a1, s1, 8
	sb	a1, 30(s0)
	sb	a0, 31(s0)
	sb	s1, 29(s0)
	srli	s1, s1, 24
	sb	s1, 32(s0)
.Lnoise_BB9_9:
	ld	ra, 440(sp)
	ld	s0, 432(sp)
	ld	s1, 424(sp)
	ld	s2, 416(sp)
	ld	s3, 408(sp)
	ld	s4, 400(sp)
	ld	s5, 392(sp)
	ld	s6, 384(sp)
	ld	s7, 376(sp)
	ld	s8, 368(sp)
	ld	s9, 360(sp)
	.cfi_restore ra
	.cfi_restore s0
	.cfi_restore s1
	.cfi_restore s2
	.cfi_restore s3
	.cfi_restore s4
	.cfi_restore s5
	.cfi_restore s6
	.cfi_restore s7
	.cfi_restore s8
	.cfi_restore s9
	addi	sp, sp, 448
	.cfi_def_cfa_offset 0
	ret
.Lnoise_BB9_10:
	.cfi_restore_state
	slli	a1, a1, 2
	add	a1, a1, s7
	lw	s3, 0(a1)
	addi	a1, a0, 2
	li	a2, 62
	sd	a1, 352(sp)
	bltu	a0, a2, .Lnoise_BB9_12
	ld	a2, 80(sp)
	ld	a1, 88(sp)
	addi	a0, sp, 48
	mv	a3, s7
	call	noise_rand_chacha_guts_refill4
	ld	a0, 88(sp)
	lw	s4, 96(sp)
	addi	a0, a0, 4
	sd	a0, 88(sp)
	li	a0, 1
	j	.Lnoise_BB9_14
.Lnoise_BB9_12:
	slli	a2, a1, 2
	add	a2, a2, s7
	lw	s4, 0(a2)
	addi	a2, a0, 3
	li	a3, 61
	sd	a2, 352(sp)
	bne	a0, a3, .Lnoise_BB9_15
	ld	a2, 80(sp)
	ld	a1, 88(sp)
	addi	a0, sp, 48
	mv	a3, s7
	call	noise_rand_chacha_guts_refill4
	li	a0, 0
	ld	a1, 88(sp)
	addi	a1, a1, 4
	sd	a1, 88(sp)
.Lnoise_BB9_14:
	slli	a1, a0, 2
	add	a1, a1, s7
	addi	a0, a0, 1
	j	.Lnoise_BB9_6
.Lnoise_BB9_15:
	slli	a2, a2, 2
	add	a2, a2, s7
	lw	s5, 0(a2)
	addi	a2, a0, 4
	li	a3, 62
	sd	a2, 352(sp)
	bne	a1, a3, .Lnoise_BB9_17
	ld	a2, 80(sp)
	ld	a1, 88(sp)
	addi	a0, sp, 48
	mv	a3, s7
	call	noise_rand_chacha_guts_refill4
	ld	a0, 88(sp)
	lw	s6, 96(sp)
	addi	a0, a0, 4
	sd	a0, 88(sp)
	li	a0, 1
	sd	a0, 352(sp)
	j	.Lnoise_BB9_19
.Lnoise_BB9_17:
	slli	a1, a2, 2
	add	a1, a1, s7
	lw	s6, 0(a1)
	addi	a1, a0, 5
	li	a3, 59
	sd	a1, 352(sp)
	bltu	a0, a3, .Lnoise_BB9_20
	ld	a2, 80(sp)
	ld	a1, 88(sp)
	addi	a0, sp, 48
	mv	a3, s7
	call	noise_rand_chacha_guts_refill4
	li	a0, 0
	ld	a1, 88(sp)
	addi	a1, a1, 4
	sd	a1, 88(sp)
.Lnoise_BB9_19:
	slli	a1, a0, 2
	add	a1, a1, s7
	addi	a0, a0, 1
	j	.Lnoise_BB9_7
.Lnoise_BB9_20:
	slli	a1, a1, 2
	add	a1, a1, s7
	lw	s8, 0(a1)
	addi	a1, a0, 6
	li	a3, 62
	sd	a1, 352(sp)
	bne	a2, a3, .Lnoise_BB9_22
	ld	a2, 80(sp)
	ld	a1, 88(sp)
	addi	a0, sp, 48
	mv	a3, s7
	call	noise_rand_chacha_guts_refill4
	ld	a0, 88(sp)
	li	a1, 1
	sd	a1, 352(sp)
	lw	s9, 96(sp)
	addi	a0, a0, 4
	sd	a0, 88(sp)
	li	a0, 4
	add	a0, a0, s7
	lw	s1, 0(a0)
	j	.Lnoise_BB9_8
.Lnoise_BB9_22:
	slli	a2, a1, 2
	add	a2, a2, s7
	lw	s9, 0(a2)
	addi	a2, a0, 7
	li	a3, 57
	sd	a2, 352(sp)
	bltu	a0, a3, .Lnoise_BB9_24
	ld	a2, 80(sp)
	ld	a1, 88(sp)
	addi	a0, sp, 48
	mv	a3, s7
	call	noise_rand_chacha_guts_refill4
	ld	a0, 88(sp)
	addi	a0, a0, 4
	sd	a0, 88(sp)
	mv	s7, s7
	lw	s1, 0(s7)
	j	.Lnoise_BB9_8
.Lnoise_BB9_24:
	slli	a2, a2, 2
	add	a2, a2, s7
	lw	s1, 0(a2)
	addi	a2, a0, 8
	li	a3, 62
	sd	a2, 352(sp)
	beq	a1, a3, .Lnoise_BB9_32
	addi	a1, a0, 9
	li	a3, 55
	sd	a1, 352(sp)
	bgeu	a0, a3, .Lnoise_BB9_32
	addi	a1, a0, 10
	li	a3, 62
	sd	a1, 352(sp)
	beq	a2, a3, .Lnoise_BB9_32
	addi	a2, a0, 11
	li	a3, 53
	sd	a2, 352(sp)
	bgeu	a0, a3, .Lnoise_BB9_32
	addi	a2, a0, 12
	li	a3, 62
	sd	a2, 352(sp)
	beq	a1, a3, .Lnoise_BB9_32
	addi	a1, a0, 13
	li	a3, 51
	sd	a1, 352(sp)
	bgeu	a0, a3, .Lnoise_BB9_32
	addi	a1, a0, 14
	li	a3, 62
	sd	a1, 352(sp)
	beq	a2, a3, .Lnoise_BB9_32
	addi	a1, a0, 15
	li	a2, 49
	sd	a1, 352(sp)
	bltu	a0, a2, .Lnoise_BB9_8
.Lnoise_BB9_32:
	ld	a2, 80(sp)
	ld	a1, 88(sp)
	addi	a0, sp, 48
	mv	a3, s7
	call	noise_rand_chacha_guts_refill4
	j	.Lnoise_BB9_8
.Lnoise_func_end9:
	.size	noise_noise_state_cipher_CipherState_rekey, .Lnoise_func_end9-noise_noise_state_cipher_CipherState_rekey
	.cfi_endproc

	.section	".text.noise_aead::keystream::generator_apart","ax",@progbits
	.p2align	1
	.type	noise_noise_aead_keystream_generator_apart,@function
noise_noise_aead_keystream_generator_apart:
	.cfi_startproc
	addi	sp, sp, -240
	.cfi_def_cfa_offset 240
	sd	ra, 232(sp)
	sd	s0, 224(sp)
	sd	s1, 216(sp)
	sd	s2, 208(sp)
	sd	s3, 200(sp)
	sd	s4, 192(sp)
	sd	s5, 184(sp)
	sd	s6, 176(sp)
	sd	s7, 168(sp)
	sd	s8, 160(sp)
	sd	s9, 152(sp)
	sd	s10, 144(sp)
	sd	s11, 136(sp)
	.cfi_offset ra, -8
	.cfi_offset s0, -16
	.cfi_offset s1, -24
	.cfi_offset s2, -32
	.cfi_offset s3, -40
	.cfi_offset s4, -48
	.cfi_offset s5, -56
	.cfi_offset s6, -64
	.cfi_offset s7, -72
	.cfi_offset s8, -80
	.cfi_offset s9, -88
	.cfi_offset s10, -96
	.cfi_offset s11, -104
	mv	s0, a0
	lbu	a0, 4(a2)
	sd	a0, 96(sp)
	lbu	a0, 5(a2)
	sd	a0, 72(sp)
	lbu	a0, 6(a2)
	sd	a0, 104(sp)
	lbu	a0, 7(a2)
	sd	a0, 112(sp)
	lbu	a0, 0(a2)
	sd	a0, 64(sp)
	lbu	a0, 1(a2)
	sd	a0, 56(sp)
	lbu	a0, 2(a2)
	sd	a0, 48(sp)
	lbu	a0, 3(a2)
	sd	a0, 40(sp)
	lbu	a0, 8(a2)
	sd	a0, 80(sp)
	lbu	a0, 9(a2)
	sd	a0, 88(sp)
	lbu	a0, 10(a2)
	sd	a0, 128(sp)
	lbu	a0, 11(a2)
	sd	a0, 120(sp)
	lbu	a0, 28(a1)
	sd	a0, 32(sp)
	lbu	a0, 29(a1)
	sd	a0, 24(sp)
	lbu	a0, 30(a1)
	sd	a0, 16(sp)
	lbu	a0, 31(a1)
	sd	a0, 8(sp)
	lbu	a0, 24(a1)
	sd	a0, 0(sp)
	lbu	ra, 25(a1)
	lbu	s10, 26(a1)
	lbu	s11, 27(a1)
	lbu	s9, 20(a1)
	lbu	s8, 21(a1)
	lbu	s6, 22(a1)
	lbu	s7, 23(a1)
	lbu	s3, 16(a1)
	lbu	s5, 17(a1)
	lbu	s2, 18(a1)
	lbu	s4, 19(a1)
	lbu	t5, 12(a1)
	lbu	t6, 13(a1)
	lbu	s1, 14(a1)
	lbu	t4, 15(a1)
	lbu	t1, 8(a1)
	lbu	t2, 9(a1)
	lbu	t3, 10(a1)
	lbu	t0, 11(a1)
	lbu	a5, 4(a1)
	lbu	a6, 5(a1)
	lbu	a7, 6(a1)
	lbu	a4, 7(a1)
	lbu	a0, 0(a1)
	lbu	a2, 1(a1)
	lbu	a3, 2(a1)
	lbu	a1, 3(a1)
	sb	a0, 0(s0)
	sb	a2, 1(s0)
	sb	a3, 2(s0)
	sb	a1, 3(s0)
	sb	a5, 4(s0)
	sb	a6, 5(s0)
	sb	a7, 6(s0)
	sb	a4, 7(s0)
	sb	t1, 8(s0)
	sb	t2, 9(s0)
	sb	t3, 10(s0)
	sb	t0, 11(s0)
	sb	t5, 12(s0)
	sb	t6, 13(s0)
	sb	s1, 14(s0)
	sb	t4, 15(s0)
	sb	s3, 16(s0)
	sb	s5, 17(s0)
	sb	s2, 18(s0)
	sb	s4, 19(s0)
	sb	s9, 20(s0)
	sb	s8, 21(s0)
	sb	s6, 22(s0)
	sb	s7, 23(s0)
	ld	a0, 0(sp)
	sb	a0, 24(s0)
	sb	ra, 25(s0)
	sb	s10, 26(s0)
	sb	s11, 27(s0)
	ld	a0, 32(sp)
	sb	a0, 28(s0)
	ld	a0, 24(sp)
	sb	a0, 29(s0)
	ld	a0, 16(sp)
	sb	a0, 30(s0)
	ld	a0, 8(sp)
	sb	a0, 31(s0)
	ld	a0, 64(sp)
	sb	a0, 44(s0)
	ld	a0, 56(sp)
	sb	a0, 45(s0)
	ld	a0, 48(sp)
	sb	a0, 46(s0)
	ld	a0, 40(sp)
	sb	a0, 47(s0)
	ld	a2, 72(sp)
	slli	a0, a2, 8
	ld	a1, 96(sp)
	or	a0, a0, a1
	sb	a1, 32(s0)
	sb	a2, 33(s0)
	ld	a1, 104(sp)
	sb	a1, 34(s0)
	slli	a1, a1, 16
	ld	a2, 112(sp)
	sb	a2, 35(s0)
	slli	a2, a2, 24
	or	a1, a1, a2
	or	a0, a0, a1
	ld	a1, 80(sp)
	slli	a1, a1, 32
	or	a0, a0, a1
	ld	a1, 88(sp)
	slli	a1, a1, 40
	or	a1, a1, a0
	srli	a0, a0, 32
	srli	a1, a1, 40
	sb	a0, 36(s0)
	sb	a1, 37(s0)
	ld	a0, 128(sp)
	sb	a0, 38(s0)
	li	a0, 1
	sb	a0, 40(s0)
	sb	zero, 41(s0)
	sb	zero, 42(s0)
	sb	zero, 43(s0)
	ld	a0, 120(sp)
	sb	a0, 39(s0)
	addi	a0, s0, 48
	li	a2, 256
	li	a1, 0
	call	memset
	sb	zero, 308(s0)
	sb	zero, 309(s0)
	sb	zero, 310(s0)
	sb	zero, 311(s0)
	li	a0, 64
	sb	a0, 304(s0)
	sb	zero, 305(s0)
	sb	zero, 306(s0)
	sb	zero, 307(s0)
	ld	ra, 232(sp)
	ld	s0, 224(sp)
	ld	s1, 216(sp)
	ld	s2, 208(sp)
	ld	s3, 200(sp)
	ld	s4, 192(sp)
	ld	s5, 184(sp)
	ld	s6, 176(sp)
	ld	s7, 168(sp)
	ld	s8, 160(sp)
	ld	s9, 152(sp)
	ld	s10, 144(sp)
	ld	s11, 136(sp)
	.cfi_restore ra
	.cfi_restore s0
	.cfi_restore s1
	.cfi_restore s2
	.cfi_restore s3
	.cfi_restore s4
	.cfi_restore s5
	.cfi_restore s6
	.cfi_restore s7
	.cfi_restore s8
	.cfi_restore s9
	.cfi_restore s10
	.cfi_restore s11
	addi	sp, sp, 240
	.cfi_def_cfa_offset 0
	ret
.Lnoise_func_end10:
	.size	noise_noise_aead_keystream_generator_apart, .Lnoise_func_end10-noise_noise_aead_keystream_generator_apart
	.cfi_endproc

	.section	".text.noise_c::patterns::pattern_of","ax",@progbits
	.p2align	1
	.type	noise_noise_c_patterns_pattern_of,@function
noise_noise_c_patterns_pattern_of:
	.cfi_startproc
	addi	sp, sp, -496
	.cfi_def_cfa_offset 496
	sd	ra, 488(sp)
	sd	s0, 480(sp)
	sd	s1, 472(sp)
	sd	s2, 464(sp)
	sd	s3, 456(sp)
	.cfi_offset ra, -8
	.cfi_offset s0, -16
	.cfi_offset s1, -24
	.cfi_offset s2, -32
	.cfi_offset s3, -40
	addi	sp, sp, -1568
	.cfi_def_cfa_offset 2064
	.cfi_remember_state
	mv	s1, a2
	mv	s3, a1
	mv	s2, a0
	beqz	a2, .Lnoise_BB11_4
	add	a0, s3, s1
	lbu	a0, -1(a0)
	li	a1, 10
	bne	a0, a1, .Lnoise_BB11_4
	addi	a0, sp, 1112
	li	a2, 280
	li	a1, 0
	call	memset
	addi	a0, sp, 1664
	li	a2, 272
	li	a1, 0
	call	memset
	addi	a0, sp, 560
	li	a2, 280
	li	a1, 0
	call	memset
	addi	a0, sp, 1392
	li	a2, 272
	li	a1, 0
	call	memset
	addi	a0, sp, 1112
	mv	a1, s3
	mv	a2, s1
	call	noise_noise_names_pattern_Pattern_parse_text
	lbu	a0, 1112(sp)
	beqz	a0, .Lnoise_BB11_13
	li	s0, 2
	li	s1, 1
	j	.Lnoise_BB11_31
.Lnoise_BB11_4:
	addi	s0, sp, 1936
	sd	zero, 0(s0)
	sd	zero, 8(s0)
	sd	zero, 16(s0)
	sd	zero, 24(s0)
	sd	zero, 32(s0)
	sd	zero, 40(s0)
	addi	a0, sp, 1664
	li	a2, 272
	li	a1, 0
	call	memset
	addi	a0, sp, 1112
	li	a2, 280
	li	a1, 0
	call	memset
	addi	a0, sp, 840
	li	a2, 272
	li	a1, 0
	call	memset
	addi	a0, sp, 560
	li	a2, 280
	li	a1, 0
	call	memset
	addi	a0, sp, 288
	li	a2, 272
	li	a1, 0
	call	memset
	addi	a0, sp, 1936
	mv	a1, s3
	mv	a2, s1
	call	noise_noise_names_name_ProtocolName_parse
	lbu	a0, 0(s0)
	beqz	a0, .Lnoise_BB11_6
.Lnoise_BB11_5:
	addi	a0, sp, 16
	li	a2, 272
	li	a1, 0
	call	memset
	li	s1, 1
	li	s0, 1
	j	.Lnoise_BB11_56
.Lnoise_BB11_6:
	ld	a1, 40(s0)
	ld	a2, 8(s0)
	ld	a0, 16(s0)
	ld	a3, 24(s0)
	ld	a4, 32(s0)
	sd	a1, 80(s0)
	sd	a2, 48(s0)
	sd	a0, 56(s0)
	sd	a3, 64(s0)
	sd	a4, 72(s0)
	beqz	a1, .Lnoise_BB11_15
	beqz	a0, .Lnoise_BB11_5
	li	a1, 1
	bne	a0, a1, .Lnoise_BB11_21
	lbu	a0, 48(s0)
	li	a1, 88
	beq	a0, a1, .Lnoise_BB11_42
	li	a1, 78
	beq	a0, a1, .Lnoise_BB11_41
	li	a1, 75
	bne	a0, a1, .Lnoise_BB11_5
	li	a1, 1
	j	.Lnoise_BB11_43
.Lnoise_BB11_13:
	addi	a1, sp, 1120
	addi	a0, sp, 560
	call	noise_noise_names_pattern_Pattern_check
	lbu	s1, 560(sp)
	beqz	s1, .Lnoise_BB11_29
	li	s0, 2
	j	.Lnoise_BB11_30
.Lnoise_BB11_15:
	li	s1, 1
	beqz	a0, .Lnoise_BB11_55
	bne	a0, s1, .Lnoise_BB11_33
	lbu	a0, 48(s0)
	li	a1, 88
	beq	a0, a1, .Lnoise_BB11_53
	li	a1, 78
	beq	a0, a1, .Lnoise_BB11_52
	li	a1, 75
	bne	a0, a1, .Lnoise_BB11_55
	li	a1, 1
	j	.Lnoise_BB11_54
.Lnoise_BB11_21:
	li	a1, 2
	bltu	a1, a0, .Lnoise_BB11_5
	lbu	a0, 48(s0)
	li	a1, 77
	blt	a1, a0, .Lnoise_BB11_46
	li	a1, 73
	beq	a0, a1, .Lnoise_BB11_66
	li	a1, 75
	bne	a0, a1, .Lnoise_BB11_5
	lbu	a0, 49(s0)
	li	a1, 88
	beq	a0, a1, .Lnoise_BB11_86
	li	a1, 78
	beq	a0, a1, .Lnoise_BB11_82
	li	a1, 75
	bne	a0, a1, .Lnoise_BB11_5
	li	a1, 7
	j	.Lnoise_BB11_43
.Lnoise_BB11_29:
	addi	a1, sp, 568
	addi	a0, sp, 1392
	li	a2, 272
	call	memcpy
	li	s0, 0
.Lnoise_BB11_30:
	addi	a0, sp, 1664
	addi	a1, sp, 1392
	li	a2, 272
	call	memcpy
.Lnoise_BB11_31:
	addi	a0, sp, 16
	addi	a1, sp, 1664
.Lnoise_BB11_32:
	li	a2, 272
	call	memcpy
	j	.Lnoise_BB11_56
.Lnoise_BB11_33:
	li	a1, 2
	bltu	a1, a0, .Lnoise_BB11_55
	lbu	a0, 48(s0)
	li	a1, 77
	blt	a1, a0, .Lnoise_BB11_57
	li	a1, 73
	beq	a0, a1, .Lnoise_BB11_74
	li	a1, 75
	bne	a0, a1, .Lnoise_BB11_55
	lbu	a0, 49(s0)
	li	a1, 88
	beq	a0, a1, .Lnoise_BB11_94
	li	a1, 78
	beq	a0, a1, .Lnoise_BB11_90
	li	a1, 75
	bne	a0, a1, .Lnoise_BB11_55
	li	a1, 7
	j	.Lnoise_BB11_54
.Lnoise_BB11_41:
	li	a1, 0
	j	.Lnoise_BB11_43
.Lnoise_BB11_42:
	li	a1, 2
.Lnoise_BB11_43:
	addi	s0, sp, 2000
	addi	a0, sp, 1392
	call	noise_noise_names_table_row
	addi	a0, sp, 1112
	addi	a1, sp, 1392
	mv	a2, s0
	call	noise_noise_names_pattern_Pattern_with_psks
	lbu	a0, 1112(sp)
	li	s1, 1
	li	s0, 1
	bnez	a0, .Lnoise_BB11_65
	addi	a1, sp, 1120
	addi	a0, sp, 560
	call	noise_noise_names_pattern_Pattern_check
	lbu	s1, 560(sp)
	beqz	s1, .Lnoise_BB11_63
	li	s0, 2
	j	.Lnoise_BB11_64
.Lnoise_BB11_46:
	li	a1, 88
	beq	a0, a1, .Lnoise_BB11_70
	li	a1, 78
	bne	a0, a1, .Lnoise_BB11_5
	lbu	a0, 49(s0)
	li	a1, 88
	beq	a0, a1, .Lnoise_BB11_87
	li	a1, 78
	beq	a0, a1, .Lnoise_BB11_83
	li	a1, 75
	bne	a0, a1, .Lnoise_BB11_5
	li	a1, 4
	j	.Lnoise_BB11_43
.Lnoise_BB11_52:
	li	a1, 0
	j	.Lnoise_BB11_54
.Lnoise_BB11_53:
	li	a1, 2
.Lnoise_BB11_54:
	addi	a0, sp, 1664
	call	noise_noise_names_table_row
	li	s1, 0
.Lnoise_BB11_55:
	addi	a0, sp, 16
	addi	a1, sp, 1664
	li	a2, 272
	call	memcpy
	mv	s0, s1
.Lnoise_BB11_56:
	sb	s1, 0(s2)
	sb	zero, 1(s2)
	sb	zero, 2(s2)
	sb	zero, 3(s2)
	sb	s0, 4(s2)
	sb	zero, 5(s2)
	sb	zero, 6(s2)
	sb	zero, 7(s2)
	addi	a0, s2, 8
	addi	a1, sp, 16
	li	a2, 272
	call	memcpy
	addi	sp, sp, 1568
	.cfi_def_cfa_offset 496
	ld	ra, 488(sp)
	ld	s0, 480(sp)
	ld	s1, 472(sp)
	ld	s2, 464(sp)
	ld	s3, 456(sp)
	.cfi_restore ra
	.cfi_restore s0
	.cfi_restore s1
	.cfi_restore s2
	.cfi_restore s3
	addi	sp, sp, 496
	.cfi_def_cfa_offset 0
	ret
.Lnoise_BB11_57:
	.cfi_restore_state
	li	a1, 88
	beq	a0, a1, .Lnoise_BB11_78
	li	a1, 78
	bne	a0, a1, .Lnoise_BB11_55
	lbu	a0, 49(s0)
	li	a1, 88
	beq	a0, a1, .Lnoise_BB11_95
	li	a1, 78
	beq	a0, a1, .Lnoise_BB11_91
	li	a1, 75
	bne	a0, a1, .Lnoise_BB11_55
	li	a1, 4
	j	.Lnoise_BB11_54
.Lnoise_BB11_63:
	addi	a1, sp, 568
	addi	a0, sp, 288
	li	a2, 272
	call	memcpy
	li	s0, 0
.Lnoise_BB11_64:
	addi	a0, sp, 840
	addi	a1, sp, 288
	li	a2, 272
	call	memcpy
.Lnoise_BB11_65:
	addi	a0, sp, 16
	addi	a1, sp, 840
	j	.Lnoise_BB11_32
.Lnoise_BB11_66:
	lbu	a0, 49(s0)
	li	a1, 88
	beq	a0, a1, .Lnoise_BB11_88
	li	a1, 78
	beq	a0, a1, .Lnoise_BB11_84
	li	a1, 75
	bne	a0, a1, .Lnoise_BB11_5
	li	a1, 13
	j	.Lnoise_BB11_43
.Lnoise_BB11_70:
	lbu	a0, 49(s0)
	beq	a0, a1, .Lnoise_BB11_89
	li	a1, 78
	beq	a0, a1, .Lnoise_BB11_85
	li	a1, 75
	bne	a0, a1, .Lnoise_BB11_5
	li	a1, 10
	j	.Lnoise_BB11_43
.Lnoise_BB11_74:
	lbu	a0, 49(s0)
	li	a1, 88
	beq	a0, a1, .Lnoise_BB11_96
	li	a1, 78
	beq	a0, a1, .Lnoise_BB11_92
	li	a1, 75
	bne	a0, a1, .Lnoise_BB11_55
	li	a1, 13
	j	.Lnoise_BB11_54
.Lnoise_BB11_78:
	lbu	a0, 49(s0)
	beq	a0, a1, .Lnoise_BB11_97
	li	a1, 78
	beq	a0, a1, .Lnoise_BB11_93
	li	a1, 75
	bne	a0, a1, .Lnoise_BB11_55
	li	a1, 10
	j	.Lnoise_BB11_54
.Lnoise_BB11_82:
	li	a1, 6
	j	.Lnoise_BB11_43
.Lnoise_BB11_83:
	li	a1, 3
	j	.Lnoise_BB11_43
.Lnoise_BB11_84:
	li	a1, 12
	j	.Lnoise_BB11_43
.Lnoise_BB11_85:
	li	a1, 9
	j	.Lnoise_BB11_43
.Lnoise_BB11_86:
	li	a1, 8
	j	.Lnoise_BB11_43
.Lnoise_BB11_87:
	li	a1, 5
	j	.Lnoise_BB11_43
.Lnoise_BB11_88:
	li	a1, 14
	j	.Lnoise_BB11_43
.Lnoise_BB11_89:
	li	a1, 11
	j	.Lnoise_BB11_43
.Lnoise_BB11_90:
	li	a1, 6
	j	.Lnoise_BB11_54
.Lnoise_BB11_91:
	li	a1, 3
	j	.Lnoise_BB11_54
.Lnoise_BB11_92:
	li	a1, 12
	j	.Lnoise_BB11_54
.Lnoise_BB11_93:
	li	a1, 9
	j	.Lnoise_BB11_54
.Lnoise_BB11_94:
	li	a1, 8
	j	.Lnoise_BB11_54
.Lnoise_BB11_95:
	li	a1, 5
	j	.Lnoise_BB11_54
.Lnoise_BB11_96:
	li	a1, 14
	j	.Lnoise_BB11_54
.Lnoise_BB11_97:
	li	a1, 11
	j	.Lnoise_BB11_54
.Lnoise_func_end11:
	.size	noise_noise_c_patterns_pattern_of, .Lnoise_func_end11-noise_noise_c_patterns_pattern_of
	.cfi_endproc

	.section	".text.noise_names::pattern::Pattern::parse_text","ax",@progbits
	.p2align	1
	.type	noise_noise_names_pattern_Pattern_parse_text,@function
noise_noise_names_pattern_Pattern_parse_text:
	.cfi_startproc
	addi	sp, sp, -2032
	.cfi_def_cfa_offset 2032
	sd	ra, 2024(sp)
	sd	s0, 2016(sp)
	sd	s1, 2008(sp)
	sd	s2, 2000(sp)
	sd	s3, 1992(sp)
	sd	s4, 1984(sp)
	sd	s5, 1976(sp)
	sd	s6, 1968(sp)
	sd	s7, 1960(sp)
	sd	s8, 1952(sp)
	sd	s9, 1944(sp)
	sd	s10, 1936(sp)
	sd	s11, 1928(sp)
	.cfi_offset ra, -8
	.cfi_offset s0, -16
	.cfi_offset s1, -24
	.cfi_offset s2, -32
	.cfi_offset s3, -40
	.cfi_offset s4, -48
	.cfi_offset s5, -56
	.cfi_offset s6, -64
	.cfi_offset s7, -72
	.cfi_offset s8, -80
	.cfi_offset s9, -88
	.cfi_offset s10, -96
	.cfi_offset s11, -104
	addi	sp, sp, -2048
	addi	sp, sp, -544
	.cfi_def_cfa_offset 4624
	.cfi_remember_state
	mv	s1, a2
	mv	s7, a1
	mv	s2, a0
	addi	s8, sp, 2047
	addi	s8, s8, 169
	sw	zero, 584(sp)
	sh	zero, 588(sp)
	sb	zero, 590(sp)
	addi	a0, sp, 328
	li	a2, 256
	li	a1, 0
	call	memset
	sw	zero, 320(sp)
	sh	zero, 324(sp)
	sb	zero, 326(sp)
	addi	a0, sp, 64
	li	a2, 256
	li	a1, 0
	call	memset
	sw	zero, 56(sp)
	sh	zero, 60(sp)
	sb	zero, 62(sp)
	addi	a0, sp, 2047
	addi	a0, a0, 721
	li	a2, 272
	li	a1, 0
	call	memset
	addi	a0, sp, 2047
	addi	a0, a0, 457
	li	a2, 264
	li	a1, 0
	call	memset
	addi	a0, sp, 2047
	addi	a0, a0, 177
	li	a2, 280
	li	a1, 0
	call	memset
	sw	zero, 0(s8)
	sh	zero, 4(s8)
	sb	zero, 6(s8)
	addi	a0, sp, 1960
	li	a2, 256
	li	a1, 0
	call	memset
	addi	a0, sp, 1408
	li	a2, 552
	li	a1, 0
	call	memset
	addi	a0, sp, 856
	li	a2, 552
	li	a1, 0
	call	memset
	sw	zero, 848(sp)
	sh	zero, 852(sp)
	sb	zero, 854(sp)
	addi	a0, sp, 592
	li	a2, 256
	li	a1, 0
	call	memset
	sd	zero, 1424(s8)
	sd	zero, 1432(s8)
	sd	zero, 1392(s8)
	sd	zero, 1400(s8)
	sd	zero, 1408(s8)
	sd	zero, 1416(s8)
	beqz	s1, .Lnoise_BB12_50
	li	s0, 0
	lui	a0, 1
	addi	a0, a0, 240
	add	s9, sp, a0
.Lnoise_BB12_2:
	add	s4, s7, s0
	lbu	a0, 0(s4)
	li	a1, 58
	beq	a0, a1, .Lnoise_BB12_4
	addi	s0, s0, 1
	bne	s1, s0, .Lnoise_BB12_2
	j	.Lnoise_BB12_50
.Lnoise_BB12_4:
	beq	s1, s0, .Lnoise_BB12_50
	lbu	a0, 0(s4)
	li	a1, 58
	bne	a0, a1, .Lnoise_BB12_50
	addi	a0, sp, 2047
	addi	a0, a0, 1561
	mv	a1, s7
	mv	a2, s0
	call	noise_noise_names_section_parse_section
	lbu	a0, 1392(s8)
	bnez	a0, .Lnoise_BB12_50
	ld	a0, 1432(s8)
	addi	a1, s1, -1
	sd	a0, 856(s8)
	ld	a0, 1400(s8)
	ld	a2, 1408(s8)
	ld	a3, 1416(s8)
	ld	a4, 1424(s8)
	sd	a0, 824(s8)
	sd	a2, 832(s8)
	sd	a3, 840(s8)
	sd	a4, 848(s8)
	beq	a1, s0, .Lnoise_BB12_50
	lbu	a0, 1(s4)
	li	a1, 10
	bne	a0, a1, .Lnoise_BB12_50
	ld	s10, 832(s8)
	addi	a0, sp, 2047
	addi	a0, a0, 1033
	li	a2, 264
	li	a1, 0
	call	memset
	addi	a0, sp, 2047
	addi	a0, a0, 993
	mv	a1, s10
	call	noise_noise_names_table_place_of
	andi	a0, a0, 1
	beqz	a0, .Lnoise_BB12_11
	addi	a0, sp, 2047
	addi	a0, a0, 1561
	call	noise_noise_names_table_row
	addi	a0, sp, 2047
	addi	a0, a0, 1297
	addi	a1, sp, 2047
	addi	a1, a1, 1561
	li	a2, 264
	call	memcpy
	ld	s10, 1656(s8)
	addi	a0, sp, 2047
	addi	a0, a0, 457
	addi	a1, sp, 2047
	addi	a1, a1, 1297
	j	.Lnoise_BB12_48
.Lnoise_BB12_11:
	addi	s4, s4, 2
	sub	s5, s1, s0
	addi	s5, s5, -2
	addi	a0, sp, 2047
	addi	a0, a0, 1297
	li	a2, 264
	li	a1, 0
	call	memset
	sd	zero, 32(s9)
	sd	zero, 40(s9)
	sd	zero, 48(s9)
	sd	zero, 56(s9)
	sd	zero, 0(s9)
	sd	zero, 8(s9)
	sd	zero, 16(s9)
	sd	zero, 24(s9)
	lui	a0, 1
	addi	a0, a0, 48
	add	a0, a0, sp
	li	a2, 192
	li	a1, 0
	call	memset
	addi	a0, sp, 2047
	addi	a0, a0, 1833
	li	a2, 264
	li	a1, 0
	call	memset
	sd	zero, 80(s9)
	sd	zero, 88(s9)
	sd	zero, 104(s9)
	sd	zero, 112(s9)
	sd	zero, 120(s9)
	sd	zero, 128(s9)
	sd	zero, 1424(s8)
	sd	zero, 1392(s8)
	sd	zero, 1400(s8)
	sd	zero, 1408(s8)
	sd	zero, 1416(s8)
	addi	a0, sp, 2047
	addi	a0, a0, 1561
	li	a1, 0
	mv	a2, s4
	mv	a3, s5
	call	noise_noise_names_text_read_read_line
	lbu	a0, 1392(s8)
	li	a1, 1
	bne	a0, a1, .Lnoise_BB12_13
	ld	a0, 1400(s8)
	ld	a1, 1408(s8)
	ld	s6, 1416(s8)
	ld	s0, 1424(s8)
	sd	a0, 64(s9)
	sd	a1, 72(s9)
	j	.Lnoise_BB12_14
.Lnoise_BB12_13:
	sd	zero, 64(s9)
	sd	zero, 72(s9)
	mv	s6, s4
	mv	s0, s5
.Lnoise_BB12_14:
	sd	zero, 1392(s8)
	sd	zero, 1400(s8)
	sd	zero, 1408(s8)
	sd	zero, 1416(s8)
	sd	zero, 1424(s8)
	addi	a0, sp, 2047
	addi	a0, a0, 1561
	li	a1, 1
	li	s3, 1
	mv	a2, s6
	mv	a3, s0
	call	noise_noise_names_text_read_read_line
	lbu	a0, 1392(s8)
	bne	a0, s3, .Lnoise_BB12_16
	ld	a0, 1400(s8)
	ld	a1, 1408(s8)
	ld	s6, 1416(s8)
	ld	s0, 1424(s8)
	sd	a0, 160(s9)
	sd	a1, 168(s9)
	j	.Lnoise_BB12_17
.Lnoise_BB12_16:
	sd	zero, 160(s9)
	sd	zero, 168(s9)
.Lnoise_BB12_17:
	ld	a0, 160(s9)
	ld	a1, 168(s9)
	li	a2, 6
	sd	a0, 80(s9)
	sd	a1, 88(s9)
	bgeu	s0, a2, .Lnoise_BB12_19
.Lnoise_BB12_18:
	sd	zero, 104(s9)
	sd	zero, 112(s9)
	sd	zero, 120(s9)
	sd	zero, 128(s9)
	j	.Lnoise_BB12_26
.Lnoise_BB12_19:
	lbu	a1, 0(s6)
	li	a0, 32
	bne	a1, a0, .Lnoise_BB12_18
	lbu	a1, 1(s6)
	bne	a1, a0, .Lnoise_BB12_18
	lbu	a1, 2(s6)
	li	a0, 46
	bne	a1, a0, .Lnoise_BB12_18
	lbu	a1, 3(s6)
	bne	a1, a0, .Lnoise_BB12_18
	lbu	a0, 4(s6)
	li	a1, 46
	bne	a0, a1, .Lnoise_BB12_18
	lbu	a0, 5(s6)
	li	a1, 10
	bne	a0, a1, .Lnoise_BB12_18
	addi	s5, s0, -6
	addi	s4, s6, 6
	ld	a0, 64(s9)
	ld	a1, 72(s9)
	ld	a2, 80(s9)
	ld	a3, 88(s9)
	sd	a0, 104(s9)
	sd	a1, 112(s9)
	sd	a2, 120(s9)
	sd	a3, 128(s9)
.Lnoise_BB12_26:
	sd	s10, 48(sp)
	ld	a0, 104(s9)
	ld	a1, 112(s9)
	ld	a2, 120(s9)
	ld	a3, 128(s9)
	sd	zero, 104(s9)
	sd	zero, 112(s9)
	sd	zero, 120(s9)
	sd	zero, 128(s9)
	sd	a0, 0(s9)
	sd	a1, 8(s9)
	sd	a2, 16(s9)
	sd	a3, 24(s9)
	sd	a2, 32(s9)
	sd	a3, 40(s9)
	sd	a0, 48(s9)
	sd	a1, 56(s9)
	sd	zero, 136(s9)
	addi	a0, sp, 2047
	addi	a0, a0, 1561
	li	a2, 200
	addi	s3, sp, 2047
	addi	s3, s3, 1561
	li	a1, 0
	call	memset
	lui	a0, 1
	addi	a0, a0, 344
	add	a0, a0, sp
	li	a1, 0
	mv	a2, s4
	mv	a3, s5
	call	noise_noise_names_text_read_read_line
	lbu	a0, 104(s9)
	li	a1, 1
	bne	a0, a1, .Lnoise_BB12_32
	li	s4, 0
	ld	s10, 1584(s8)
	slli	a0, s10, 3
	slli	a1, s10, 4
	add	a0, a0, a1
	lui	a1, 1
	addi	a1, a1, 352
	add	s11, sp, a1
	add	s3, s3, a0
.Lnoise_BB12_28:
	ld	a0, 0(s11)
	ld	s0, 8(s11)
	sd	a0, 144(s9)
	sd	s0, 152(s9)
	beqz	s0, .Lnoise_BB12_33
	li	a0, 8
	beq	s10, a0, .Lnoise_BB12_33
	ld	s5, 128(s9)
	ld	s6, 136(s9)
	li	a0, 11
	sd	zero, 160(s9)
	sd	zero, 168(s9)
	bgeu	s0, a0, .Lnoise_BB12_209
	lui	a0, 1
	addi	a0, a0, 400
	add	a0, a0, sp
	lui	a1, 1
	addi	a1, a1, 384
	add	a1, a1, sp
	mv	a2, s0
	call	memcpy
	ld	a0, 160(s9)
	ld	a1, 168(s9)
	addi	s10, s10, 1
	sd	a0, 80(s9)
	sd	a1, 88(s9)
	sd	s0, 96(s9)
	sd	a0, 0(s3)
	sd	a1, 8(s3)
	sd	s0, 16(s3)
	xori	s4, s4, 1
	lui	a0, 1
	addi	a0, a0, 344
	add	a0, a0, sp
	mv	a1, s4
	mv	a2, s5
	mv	a3, s6
	call	noise_noise_names_text_read_read_line
	lbu	a0, 104(s9)
	li	a1, 1
	addi	s3, s3, 24
	beq	a0, a1, .Lnoise_BB12_28
	j	.Lnoise_BB12_33
.Lnoise_BB12_32:
	ld	s10, 1584(s8)
.Lnoise_BB12_33:
	lui	a0, 1
	addi	a0, a0, 48
	add	a0, a0, sp
	addi	a1, sp, 2047
	addi	a1, a1, 1561
	li	a2, 192
	call	memcpy
	beqz	s10, .Lnoise_BB12_50
	ld	s3, 56(s9)
	ld	s4, 40(s9)
	beqz	s3, .Lnoise_BB12_40
	li	a0, 1
	bne	s3, a0, .Lnoise_BB12_37
	lbu	a0, 48(s9)
	li	a1, 2
	bgeu	a0, a1, .Lnoise_BB12_50
	j	.Lnoise_BB12_40
.Lnoise_BB12_37:
	li	a0, 2
	bltu	a0, s3, .Lnoise_BB12_50
	lbu	a0, 48(s9)
	bnez	a0, .Lnoise_BB12_50
	lbu	a0, 49(s9)
	li	a1, 1
	bne	a0, a1, .Lnoise_BB12_50
.Lnoise_BB12_40:
	beqz	s4, .Lnoise_BB12_46
	li	a0, 1
	bne	s4, a0, .Lnoise_BB12_43
	lbu	a0, 32(s9)
	li	a1, 2
	bgeu	a0, a1, .Lnoise_BB12_50
	j	.Lnoise_BB12_46
.Lnoise_BB12_43:
	li	a0, 2
	bltu	a0, s4, .Lnoise_BB12_50
	lbu	a0, 32(s9)
	bnez	a0, .Lnoise_BB12_50
	lbu	a0, 33(s9)
	li	a1, 1
	bne	a0, a1, .Lnoise_BB12_50
.Lnoise_BB12_46:
	li	a0, 9
	sd	zero, 104(s9)
	ld	s0, 48(sp)
	bgeu	s0, a0, .Lnoise_BB12_209
	lui	a0, 1
	addi	a0, a0, 344
	add	a0, a0, sp
	addi	a1, sp, 2047
	addi	a1, a1, 993
	mv	a2, s0
	call	memcpy
	sd	s0, 112(s9)
	sd	zero, 160(s9)
	lui	a0, 1
	addi	a0, a0, 400
	add	a0, a0, sp
	lui	a1, 1
	addi	a1, a1, 288
	add	a1, a1, sp
	mv	a2, s3
	call	memcpy
	sd	s3, 168(s9)
	sd	zero, 80(s9)
	lui	a0, 1
	addi	a0, a0, 320
	add	a0, a0, sp
	lui	a1, 1
	addi	a1, a1, 272
	add	a1, a1, sp
	mv	a2, s4
	call	memcpy
	sd	s4, 88(s9)
	sd	s4, 1456(s8)
	ld	a0, 80(s9)
	ld	a1, 104(s9)
	ld	a2, 112(s9)
	ld	a3, 160(s9)
	ld	a4, 168(s9)
	sd	a1, 1392(s8)
	sd	a2, 1400(s8)
	sd	zero, 1408(s8)
	sd	zero, 1416(s8)
	sd	zero, 1424(s8)
	sd	a3, 1432(s8)
	sd	a4, 1440(s8)
	sd	a0, 1448(s8)
	addi	a0, sp, 2047
	addi	a0, a0, 1633
	lui	a1, 1
	addi	a1, a1, 48
	add	a1, a1, sp
	li	a2, 192
	call	memcpy
	addi	a0, sp, 2047
	addi	a0, a0, 1833
	addi	a1, sp, 2047
	addi	a1, a1, 1561
	li	a2, 264
	call	memcpy
	addi	a0, sp, 2047
	addi	a0, a0, 1033
	addi	a1, sp, 2047
	addi	a1, a1, 1833
	li	a2, 264
	call	memcpy
	addi	a0, sp, 2047
	addi	a0, a0, 457
	addi	a1, sp, 2047
	addi	a1, a1, 1033
.Lnoise_BB12_48:
	li	a2, 264
	call	memcpy
	addi	a0, sp, 2047
	addi	a0, a0, 721
	addi	a1, sp, 2047
	addi	a1, a1, 457
	li	a2, 264
	call	memcpy
	sd	s10, 816(s8)
	addi	a2, sp, 2047
	addi	a2, a2, 1009
	addi	a0, sp, 2047
	addi	a0, a0, 177
	addi	a1, sp, 2047
	addi	a1, a1, 721
	call	noise_noise_names_pattern_Pattern_with_psks
	lbu	a0, 8(s8)
	beqz	a0, .Lnoise_BB12_79
	lw	a0, 0(s8)
	lh	a1, 4(s8)
	lbu	a2, 6(s8)
	sw	a0, 584(sp)
	sh	a1, 588(sp)
	sb	a2, 590(sp)
	addi	a0, sp, 328
	addi	a1, sp, 1960
	li	a2, 256
	call	memcpy
	j	.Lnoise_BB12_51
.Lnoise_BB12_50:
	sw	zero, 584(sp)
	sh	zero, 588(sp)
	sb	zero, 590(sp)
	addi	a0, sp, 328
	li	a2, 256
	li	a1, 0
	call	memset
.Lnoise_BB12_51:
	sd	zero, 1440(sp)
	sd	zero, 1448(sp)
	sd	zero, 1408(sp)
	sd	zero, 1416(sp)
	sd	zero, 1424(sp)
	sd	zero, 1432(sp)
	beqz	s1, .Lnoise_BB12_58
	li	s0, 0
.Lnoise_BB12_53:
	add	s4, s7, s0
	lbu	a0, 0(s4)
	li	a1, 58
	beq	a0, a1, .Lnoise_BB12_55
	addi	s0, s0, 1
	bne	s1, s0, .Lnoise_BB12_53
	j	.Lnoise_BB12_58
.Lnoise_BB12_55:
	beq	s1, s0, .Lnoise_BB12_58
	lbu	a0, 0(s4)
	li	a1, 58
	bne	a0, a1, .Lnoise_BB12_58
	addi	a0, sp, 1408
	mv	a1, s7
	mv	a2, s0
	call	noise_noise_names_section_parse_section
	lbu	a0, 1408(sp)
	beqz	a0, .Lnoise_BB12_61
.Lnoise_BB12_58:
	li	s9, 0
	li	s6, 1
.Lnoise_BB12_59:
	lw	a0, 56(sp)
	lh	a1, 60(sp)
	lbu	a2, 62(sp)
	sw	a0, 320(sp)
	sh	a1, 324(sp)
	sb	a2, 326(sp)
	li	a0, 1
.Lnoise_BB12_60:
	sb	zero, 4(s2)
	sb	zero, 5(s2)
	sb	zero, 6(s2)
	sb	zero, 7(s2)
	sb	a0, 0(s2)
	sb	zero, 1(s2)
	sb	zero, 2(s2)
	sb	zero, 3(s2)
	srli	a0, s6, 56
	srli	a1, s6, 48
	srli	a2, s6, 40
	srli	a3, s6, 32
	srli	a4, s6, 24
	srli	a5, s6, 16
	sb	a3, 12(s2)
	sb	a2, 13(s2)
	sb	a1, 14(s2)
	sb	a0, 15(s2)
	srli	a0, s6, 8
	sb	s6, 8(s2)
	sb	a0, 9(s2)
	sb	a5, 10(s2)
	sb	a4, 11(s2)
	lbu	a0, 320(sp)
	lbu	a1, 321(sp)
	lbu	a2, 322(sp)
	lbu	a3, 323(sp)
	sb	s9, 16(s2)
	sb	a0, 17(s2)
	sb	a1, 18(s2)
	sb	a2, 19(s2)
	lbu	a0, 324(sp)
	lbu	a1, 325(sp)
	lbu	a2, 326(sp)
	sb	a3, 20(s2)
	sb	a0, 21(s2)
	sb	a1, 22(s2)
	sb	a2, 23(s2)
	addi	a0, s2, 24
	addi	a1, sp, 64
	li	a2, 256
	call	memcpy
	addi	sp, sp, 2032
	addi	sp, sp, 560
	.cfi_def_cfa_offset 2032
	ld	ra, 2024(sp)
	ld	s0, 2016(sp)
	ld	s1, 2008(sp)
	ld	s2, 2000(sp)
	ld	s3, 1992(sp)
	ld	s4, 1984(sp)
	ld	s5, 1976(sp)
	ld	s6, 1968(sp)
	ld	s7, 1960(sp)
	ld	s8, 1952(sp)
	ld	s9, 1944(sp)
	ld	s10, 1936(sp)
	ld	s11, 1928(sp)
	.cfi_restore ra
	.cfi_restore s0
	.cfi_restore s1
	.cfi_restore s2
	.cfi_restore s3
	.cfi_restore s4
	.cfi_restore s5
	.cfi_restore s6
	.cfi_restore s7
	.cfi_restore s8
	.cfi_restore s9
	.cfi_restore s10
	.cfi_restore s11
	addi	sp, sp, 2032
	.cfi_def_cfa_offset 0
	ret
.Lnoise_BB12_61:
	.cfi_restore_state
	addi	a0, s1, -1
	ld	a1, 1448(sp)
	ld	a2, 1416(sp)
	ld	a3, 1424(sp)
	ld	a4, 1432(sp)
	ld	a5, 1440(sp)
	sd	a1, 40(s8)
	li	s9, 8
	sd	a2, 8(s8)
	sd	a3, 16(s8)
	sd	a4, 24(s8)
	sd	a5, 32(s8)
	li	s6, 1
	beq	a0, s0, .Lnoise_BB12_59
	lbu	a0, 1(s4)
	li	a1, 10
	bne	a0, a1, .Lnoise_BB12_65
	addi	a1, s1, -2
	bne	a1, s0, .Lnoise_BB12_66
	li	s6, 2
	j	.Lnoise_BB12_59
.Lnoise_BB12_65:
	li	s9, 0
	j	.Lnoise_BB12_59
.Lnoise_BB12_66:
	addi	a0, a0, -10
	addi	s4, s4, 2
	sub	s1, s1, s0
	ld	a1, 40(s8)
	sd	a1, 48(sp)
	snez	a0, a0
	addi	s1, s1, -2
	addi	a0, a0, -1
	and	s10, a0, s4
	and	s11, a0, s1
.Lnoise_BB12_67:
	li	s0, 0
.Lnoise_BB12_68:
	add	a0, s4, s0
	lbu	a0, 0(a0)
	li	a1, 10
	beq	a0, a1, .Lnoise_BB12_71
	addi	s0, s0, 1
	bne	s1, s0, .Lnoise_BB12_68
	mv	s0, s1
.Lnoise_BB12_71:
	li	a0, 5
	bne	s0, a0, .Lnoise_BB12_77
	lbu	a1, 0(s4)
	li	a0, 32
	bne	a1, a0, .Lnoise_BB12_77
	lbu	a1, 1(s4)
	bne	a1, a0, .Lnoise_BB12_77
	lbu	a1, 2(s4)
	li	a0, 46
	bne	a1, a0, .Lnoise_BB12_77
	lbu	a1, 3(s4)
	bne	a1, a0, .Lnoise_BB12_77
.Lnoise_pcrel_hi1:
	auipc	a2, %pcrel_hi(.Lnoise_static.96)
	addi	a2, a2, %pcrel_lo(.Lnoise_pcrel_hi1)
	li	a1, 5
	mv	a0, s4
	call	noise_core_cmp_slices_groups_equal_i8_31_core_cmp_numbers_U8PartialEq
	bnez	a0, .Lnoise_BB12_84
.Lnoise_BB12_77:
	li	s3, 0
	beq	s1, s0, .Lnoise_BB12_85
	add	s4, s4, s0
	xor	a0, s1, s0
	not	a1, s0
	snez	a0, a0
	add	s1, s1, a1
	add	s4, s4, a0
	bnez	s1, .Lnoise_BB12_67
	j	.Lnoise_BB12_85
.Lnoise_BB12_79:
	addi	a1, sp, 2047
	addi	a1, a1, 185
	addi	a0, sp, 1408
	call	noise_noise_names_text_write_text
	addi	a0, sp, 856
	addi	a1, sp, 1408
	li	a2, 552
	call	memcpy
	ld	a0, 1400(sp)
	bne	a0, s1, .Lnoise_BB12_197
	li	a0, 3
	bltu	a0, s1, .Lnoise_BB12_192
	li	a0, 0
	neg	a1, s1
	addi	a2, sp, 856
	mv	a3, s7
.Lnoise_BB12_82:
	lbu	a4, 0(a2)
	lbu	a5, 0(a3)
	bne	a4, a5, .Lnoise_BB12_198
	addi	a0, a0, -1
	addi	a3, a3, 1
	addi	a2, a2, 1
	bne	a1, a0, .Lnoise_BB12_82
	j	.Lnoise_BB12_199
.Lnoise_BB12_84:
	li	s3, 1
.Lnoise_BB12_85:
	li	t6, 0
	li	t5, 0
	addi	t1, sp, 1432
	addi	s5, sp, 1409
	li	s4, 2
	addi	t3, sp, 880
.Lnoise_BB12_86:
	li	s0, 0
.Lnoise_BB12_87:
	add	a0, s10, s0
	lbu	a0, 0(a0)
	li	a1, 10
	beq	a0, a1, .Lnoise_BB12_90
	addi	s0, s0, 1
	bne	s11, s0, .Lnoise_BB12_87
	mv	s0, s11
.Lnoise_BB12_90:
	slli	t2, t5, 24
	lui	a1, 4080
	lui	a2, 16
	li	a0, 5
	and	a1, t6, a1
	addi	a2, a2, -256
	or	a1, t2, a1
	and	a2, t6, a2
	or	t4, a1, a2
	srliw	ra, t4, 8
	srliw	s7, a1, 16
	bne	s0, a0, .Lnoise_BB12_97
	lbu	a4, 0(s10)
	lbu	a2, 1(s10)
	lbu	t0, 2(s10)
	lbu	a0, 3(s10)
	li	a1, 32
	bne	a4, a1, .Lnoise_BB12_100
	bne	a2, a1, .Lnoise_BB12_100
	li	a1, 46
	bne	t0, a1, .Lnoise_BB12_100
	bne	a0, a1, .Lnoise_BB12_100
	mv	a0, s5
	mv	s5, ra
	sd	t2, 8(sp)
	sd	t6, 16(sp)
	sd	t5, 24(sp)
	sd	t4, 40(sp)
	sd	s4, 32(sp)
	mv	s4, a0
	mv	s1, t1
.Lnoise_pcrel_hi2:
	auipc	a2, %pcrel_hi(.Lnoise_static.96)
	addi	a2, a2, %pcrel_lo(.Lnoise_pcrel_hi2)
	li	a1, 5
	mv	a0, s10
	call	noise_core_cmp_slices_groups_equal_i8_31_core_cmp_numbers_U8PartialEq
	beqz	a0, .Lnoise_BB12_99
	or	a0, s5, s7
	and	a0, s3, a0
	andi	a0, a0, 1
	mv	t1, s1
	mv	s5, s4
	ld	s4, 32(sp)
	addi	t3, sp, 880
	ld	a2, 40(sp)
	bnez	a0, .Lnoise_BB12_185
	j	.Lnoise_BB12_205
.Lnoise_BB12_97:
	bltu	s0, a0, .Lnoise_BB12_203
	lbu	a4, 0(s10)
	lbu	a2, 1(s10)
	lbu	t0, 2(s10)
	lbu	a0, 3(s10)
	j	.Lnoise_BB12_100
.Lnoise_BB12_99:
	li	a2, 32
	li	a0, 46
	li	t0, 46
	li	a4, 32
	mv	t1, s1
	mv	a1, s4
	ld	s4, 32(sp)
	addi	t3, sp, 880
	ld	t4, 40(sp)
	ld	t5, 24(sp)
	ld	t6, 16(sp)
	ld	t2, 8(sp)
	mv	ra, s5
	mv	s5, a1
.Lnoise_BB12_100:
	xori	a6, a2, 32
	lbu	s1, 4(s10)
	xori	a5, t0, 45
	xori	a1, a0, 62
	or	a1, a1, a5
	xori	a5, s1, 32
	or	a5, a6, a5
	or	a1, a1, a5
	xori	a5, a4, 32
	or	a3, a5, a1
	beqz	a3, .Lnoise_BB12_106
	li	a1, 32
	li	a7, 1
	bne	a4, a1, .Lnoise_BB12_191
	bne	a2, a1, .Lnoise_BB12_191
	li	a1, 45
	bne	a0, a1, .Lnoise_BB12_191
	li	a1, 60
	bne	t0, a1, .Lnoise_BB12_191
	li	a0, 32
	bne	s1, a0, .Lnoise_BB12_191
.Lnoise_BB12_106:
	addi	a1, s0, -5
	sd	zero, 1440(sp)
	sd	zero, 1448(sp)
	sd	zero, 1408(sp)
	sd	zero, 1416(sp)
	sd	zero, 1424(sp)
	sd	zero, 1432(sp)
	beqz	a1, .Lnoise_BB12_190
	li	a5, 0
	zext.b	t0, s3
	seqz	a6, a3
	addi	a2, s10, 5
.Lnoise_BB12_108:
	li	a3, 0
.Lnoise_BB12_109:
	add	a0, a2, a3
	lbu	a0, 0(a0)
	addi	a0, a0, -97
	li	a4, 25
	bltu	a4, a0, .Lnoise_BB12_112
	addi	a3, a3, 1
	bne	a1, a3, .Lnoise_BB12_109
	mv	a3, a1
.Lnoise_BB12_112:
	li	a0, 1
	beq	a3, a0, .Lnoise_BB12_120
	beqz	a3, .Lnoise_BB12_190
	li	a0, 2
	bltu	a0, a3, .Lnoise_BB12_123
	lbu	a0, 0(a2)
	li	a4, 115
	beq	a0, a4, .Lnoise_BB12_139
	li	a4, 101
	bne	a0, a4, .Lnoise_BB12_190
	lbu	a0, 1(a2)
	beq	a0, a4, .Lnoise_BB12_143
	li	a4, 115
	bne	a0, a4, .Lnoise_BB12_190
	li	a0, 0
	li	a7, 3
	j	.Lnoise_BB12_129
.Lnoise_BB12_120:
	lbu	a0, 0(a2)
	li	a4, 101
	beq	a0, a4, .Lnoise_BB12_128
	li	a4, 115
	bne	a0, a4, .Lnoise_BB12_190
	li	a0, 0
	li	a7, 1
	j	.Lnoise_BB12_129
.Lnoise_BB12_123:
	li	a0, 3
	bne	a3, a0, .Lnoise_BB12_190
	lbu	a0, 0(a2)
	li	a4, 112
	bne	a0, a4, .Lnoise_BB12_190
	lbu	a0, 1(a2)
	li	a4, 115
	bne	a0, a4, .Lnoise_BB12_190
	lbu	a0, 2(a2)
	li	a4, 107
	bne	a0, a4, .Lnoise_BB12_190
	li	a7, 6
	li	a0, 1
	j	.Lnoise_BB12_129
.Lnoise_BB12_128:
	li	a0, 0
	li	a7, 0
.Lnoise_BB12_129:
	li	a4, 11
	beq	a5, a4, .Lnoise_BB12_131
	addi	a4, sp, 1408
	add	s1, a4, a5
	addi	a4, a5, 1
	sb	a7, 0(s1)
	sd	a4, 1424(sp)
.Lnoise_BB12_131:
	bnez	a0, .Lnoise_BB12_134
	ld	a0, 1448(sp)
	li	a5, 9
	beq	a0, a5, .Lnoise_BB12_134
	add	a5, t1, a0
	addi	a0, a0, 1
	sb	a7, 0(a5)
	sd	a0, 1448(sp)
.Lnoise_BB12_134:
	beq	a1, a3, .Lnoise_BB12_144
	sub	a1, a1, a3
	li	a0, 2
	bltu	a1, a0, .Lnoise_BB12_190
	add	a2, a2, a3
	lbu	a0, 0(a2)
	li	a3, 44
	bne	a0, a3, .Lnoise_BB12_190
	lbu	a0, 1(a2)
	li	a3, 32
	bne	a0, a3, .Lnoise_BB12_190
	addi	a1, a1, -2
	addi	a2, a2, 2
	mv	a5, a4
	bnez	a1, .Lnoise_BB12_108
	j	.Lnoise_BB12_190
.Lnoise_BB12_139:
	lbu	a0, 1(a2)
	li	a4, 101
	beq	a0, a4, .Lnoise_BB12_142
	li	a4, 115
	bne	a0, a4, .Lnoise_BB12_190
	li	a0, 0
	li	a7, 5
	j	.Lnoise_BB12_129
.Lnoise_BB12_142:
	li	a0, 0
	li	a7, 4
	j	.Lnoise_BB12_129
.Lnoise_BB12_143:
	li	a0, 0
	li	a7, 2
	j	.Lnoise_BB12_129
.Lnoise_BB12_144:
	ld	a0, 1440(sp)
	ld	a1, 1448(sp)
	sd	a0, 888(sp)
	sd	a1, 896(sp)
	ld	a0, 1408(sp)
	ld	a1, 1416(sp)
	ld	a2, 1424(sp)
	ld	a3, 1432(sp)
	andi	a4, s3, 1
	sd	a0, 856(sp)
	sd	a1, 864(sp)
	sd	a2, 872(sp)
	sd	a3, 880(sp)
	beqz	a4, .Lnoise_BB12_147
	beqz	a6, .Lnoise_BB12_153
	or	a0, ra, s7
	andi	a0, a0, 1
	beqz	a0, .Lnoise_BB12_154
	j	.Lnoise_BB12_205
.Lnoise_BB12_147:
	andi	a0, t5, 1
	beq	a6, a0, .Lnoise_BB12_207
	zext.b	a2, t5
	li	a7, 7
	bltu	a7, a2, .Lnoise_BB12_191
	ld	s7, 896(sp)
	beqz	s7, .Lnoise_BB12_191
	li	a0, 9
	beq	s7, a0, .Lnoise_BB12_191
	sd	t0, 24(sp)
	sd	t4, 40(sp)
	addi	t5, t5, 1
	sd	zero, 1408(sp)
	sd	zero, 1416(sp)
	sd	t5, 16(sp)
	sb	t5, 552(s8)
	addi	a0, sp, 1408
	beqz	a2, .Lnoise_BB12_157
	li	s1, 0
	ld	s3, 48(sp)
	j	.Lnoise_BB12_168
.Lnoise_BB12_153:
	andi	a0, s7, 1
	bnez	a0, .Lnoise_BB12_205
.Lnoise_BB12_154:
	ld	a0, 872(sp)
	beqz	a0, .Lnoise_BB12_162
	li	a1, 1
	bne	a0, a1, .Lnoise_BB12_159
	lbu	a0, 856(sp)
	li	a1, 2
	bltu	a0, a1, .Lnoise_BB12_162
	j	.Lnoise_BB12_205
.Lnoise_BB12_157:
	sd	s4, 32(sp)
	mv	s4, s5
	mv	s5, t1
.Lnoise_pcrel_hi3:
	auipc	a2, %pcrel_hi(.Lnoise_static.2)
	addi	a2, a2, %pcrel_lo(.Lnoise_pcrel_hi3)
	addi	a0, sp, 2047
	addi	a0, a0, 193
	ld	s3, 48(sp)
	mv	a1, s3
	call	noise_core_slice_reads_slice_T_contains_i8_31_core_cmp_numbers_U8PartialEq
	beqz	a0, .Lnoise_BB12_166
	li	a0, 6
	sb	a0, 1408(sp)
	li	s1, 1
	mv	a0, s4
	j	.Lnoise_BB12_167
.Lnoise_BB12_159:
	li	a7, 3
	bgeu	a0, a7, .Lnoise_BB12_191
	lbu	a0, 856(sp)
	bnez	a0, .Lnoise_BB12_191
	lbu	a0, 857(sp)
	li	a1, 1
	bne	a0, a1, .Lnoise_BB12_191
.Lnoise_BB12_162:
	lui	a0, 16
	bnez	a6, .Lnoise_BB12_164
	andi	a1, t6, 256
	or	a0, a0, a1
	j	.Lnoise_BB12_165
.Lnoise_BB12_164:
	and	a0, t6, a0
	addi	a0, a0, 256
.Lnoise_BB12_165:
	or	a1, t2, t0
	or	a2, a0, a1
	j	.Lnoise_BB12_185
.Lnoise_BB12_166:
	li	s1, 0
	addi	a0, sp, 1408
.Lnoise_BB12_167:
	mv	t1, s5
	ld	s4, 32(sp)
	addi	t3, sp, 880
.Lnoise_BB12_168:
	li	a1, 10
	sub	a1, a1, s1
	bltu	a1, s7, .Lnoise_BB12_209
	mv	s5, t1
	mv	a1, t3
	mv	a2, s7
	call	memcpy
	add	s1, s1, s7
	sd	s1, 1424(sp)
	addi	a2, sp, 2047
	addi	a2, a2, 721
	addi	a0, sp, 2047
	addi	a0, a0, 193
	mv	a1, s3
	call	noise_core_slice_reads_slice_T_contains_i8_31_core_cmp_numbers_U8PartialEq
	beqz	a0, .Lnoise_BB12_171
	addi	a0, sp, 1408
	li	a1, 6
	add	a0, a0, s1
	addi	s1, s1, 1
	sb	a1, 0(a0)
	sd	s1, 1424(sp)
.Lnoise_BB12_171:
	ld	a0, 1408(sp)
	ld	a2, 1416(sp)
	ld	a1, 1424(sp)
	ld	a3, 872(sp)
	sd	a0, 1392(s8)
	sd	a2, 1400(s8)
	sd	a1, 1408(s8)
	bne	a1, a3, .Lnoise_BB12_206
	li	a0, 4
	bgeu	a1, a0, .Lnoise_BB12_178
	beqz	a1, .Lnoise_BB12_177
	li	a0, 0
	neg	a2, a1
	addi	a3, sp, 856
	addi	a4, sp, 2047
	addi	a4, a4, 1561
.Lnoise_BB12_175:
	lbu	a5, 0(a4)
	lbu	s1, 0(a3)
	bne	a5, s1, .Lnoise_BB12_183
	addi	a0, a0, -1
	addi	a3, a3, 1
	addi	a4, a4, 1
	bne	a2, a0, .Lnoise_BB12_175
.Lnoise_BB12_177:
	mv	t1, s5
	addi	t2, sp, 1409
	addi	t3, sp, 880
	j	.Lnoise_BB12_184
.Lnoise_BB12_178:
	lbu	a0, 1392(s8)
	lbu	a2, 856(sp)
	bne	a0, a2, .Lnoise_BB12_206
	lbu	a0, 1393(s8)
	lbu	a2, 857(sp)
	bne	a0, a2, .Lnoise_BB12_206
	lbu	a0, 1394(s8)
	lbu	a2, 858(sp)
	bne	a0, a2, .Lnoise_BB12_206
	lbu	a0, 1395(s8)
	lbu	a2, 859(sp)
	bne	a0, a2, .Lnoise_BB12_206
	addi	a0, sp, 2047
	addi	a0, a0, 1561
	addi	a2, sp, 856
	call	noise_core_cmp_slices_groups_equal_1549cde59530a8ca
	mv	t1, s5
	addi	t2, sp, 1409
	addi	t3, sp, 880
	bnez	a0, .Lnoise_BB12_184
	j	.Lnoise_BB12_206
.Lnoise_BB12_183:
	neg	a0, a0
	mv	t1, s5
	addi	t2, sp, 1409
	addi	t3, sp, 880
	bltu	a0, a1, .Lnoise_BB12_206
.Lnoise_BB12_184:
	lui	a0, 4096
	ld	s5, 16(sp)
	slli	s5, s5, 24
	addi	a0, a0, -256
	ld	a1, 40(sp)
	and	a0, a0, a1
	ld	a1, 24(sp)
	or	a1, s5, a1
	or	a2, a0, a1
	mv	s5, t2
.Lnoise_BB12_185:
	beq	s11, s0, .Lnoise_BB12_204
	add	s10, s10, s0
	xor	a0, s11, s0
	not	a1, s0
	add	s11, s11, a1
	srliw	t5, a2, 24
	snez	a0, a0
	add	s10, s10, a0
	addi	s4, s4, 1
	mv	s3, a2
	mv	t6, a2
	bnez	s11, .Lnoise_BB12_86
	ld	a2, 48(sp)
	addi	a1, sp, 2047
	addi	a1, a1, 193
	beqz	t5, .Lnoise_BB12_204
.Lnoise_BB12_188:
	beqz	a2, .Lnoise_BB12_208
	lbu	a0, 0(a1)
	addi	a1, a1, 1
	addi	a2, a2, -1
	li	s9, 5
	bgeu	t5, a0, .Lnoise_BB12_188
	j	.Lnoise_BB12_59
.Lnoise_BB12_190:
	li	a7, 2
.Lnoise_BB12_191:
	mv	s6, s4
	mv	s9, a7
	j	.Lnoise_BB12_59
.Lnoise_BB12_192:
	lbu	a0, 856(sp)
	lbu	a1, 0(s7)
	li	s6, 0
	bne	a0, a1, .Lnoise_BB12_200
	lbu	a0, 857(sp)
	lbu	a1, 1(s7)
	bne	a0, a1, .Lnoise_BB12_200
	lbu	a0, 858(sp)
	lbu	a1, 2(s7)
	bne	a0, a1, .Lnoise_BB12_200
	lbu	a0, 859(sp)
	lbu	a1, 3(s7)
	mv	s9, s6
	mv	s0, s6
	bne	a0, a1, .Lnoise_BB12_201
	addi	a0, sp, 856
	mv	a1, s1
	mv	a2, s7
	call	noise_core_cmp_slices_groups_equal_i8_31_core_cmp_numbers_U8PartialEq
	bnez	a0, .Lnoise_BB12_199
.Lnoise_BB12_197:
	li	s6, 0
	li	s9, 0
	li	s0, 0
	j	.Lnoise_BB12_201
.Lnoise_BB12_198:
	neg	a0, a0
	bltu	a0, s1, .Lnoise_BB12_197
.Lnoise_BB12_199:
	ld	s6, 16(s8)
	lbu	s9, 24(s8)
	lbu	a0, 25(s8)
	lbu	a1, 26(s8)
	lbu	a2, 30(s8)
	lbu	a3, 29(s8)
	lbu	a4, 27(s8)
	lbu	a5, 28(s8)
	slli	a2, a2, 8
	or	a2, a2, a3
	slli	a1, a1, 8
	or	a0, a0, a1
	slli	a4, a4, 16
	slli	a5, a5, 24
	or	a4, a4, a5
	lbu	a1, 31(s8)
	or	a0, a0, a4
	sw	a0, 848(sp)
	sh	a2, 852(sp)
	sb	a1, 854(sp)
	addi	a1, sp, 2047
	addi	a1, a1, 201
	addi	a0, sp, 592
	li	a2, 256
	call	memcpy
	li	s0, 1
	j	.Lnoise_BB12_201
.Lnoise_BB12_200:
	mv	s9, s6
	mv	s0, s6
.Lnoise_BB12_201:
	lw	a0, 848(sp)
	lh	a1, 852(sp)
	lbu	a2, 854(sp)
	sw	a0, 584(sp)
	sh	a1, 588(sp)
	sb	a2, 590(sp)
	addi	a0, sp, 328
	addi	a1, sp, 592
	li	a2, 256
	call	memcpy
	beqz	s0, .Lnoise_BB12_51
	lw	a0, 584(sp)
	lh	a1, 588(sp)
	lbu	a2, 590(sp)
	sw	a0, 320(sp)
	sh	a1, 324(sp)
	sb	a2, 326(sp)
	addi	a0, sp, 64
	addi	a1, sp, 328
	li	a2, 256
	call	memcpy
	li	a0, 0
	j	.Lnoise_BB12_60
.Lnoise_BB12_203:
	li	a7, 1
	j	.Lnoise_BB12_191
.Lnoise_BB12_204:
	mv	s6, s4
	j	.Lnoise_BB12_59
.Lnoise_BB12_205:
	li	a7, 3
	j	.Lnoise_BB12_191
.Lnoise_BB12_206:
	li	a7, 5
	j	.Lnoise_BB12_191
.Lnoise_BB12_207:
	li	a7, 4
	j	.Lnoise_BB12_191
.Lnoise_BB12_208:
	li	s9, 6
	j	.Lnoise_BB12_59
.Lnoise_BB12_209:
	unimp
.Lnoise_func_end12:
	.size	noise_noise_names_pattern_Pattern_parse_text, .Lnoise_func_end12-noise_noise_names_pattern_Pattern_parse_text
	.cfi_endproc

	.section	".text.noise_names::section::parse_section","ax",@progbits
	.p2align	1
	.type	noise_noise_names_section_parse_section,@function
noise_noise_names_section_parse_section:
	.cfi_startproc
	addi	sp, sp, -208
	.cfi_def_cfa_offset 208
	sd	ra, 200(sp)
	sd	s0, 192(sp)
	sd	s1, 184(sp)
	sd	s2, 176(sp)
	sd	s3, 168(sp)
	.cfi_offset ra, -8
	.cfi_offset s0, -16
	.cfi_offset s1, -24
	.cfi_offset s2, -32
	.cfi_offset s3, -40
	.cfi_remember_state
	sh	zero, 76(sp)
	sd	zero, 48(sp)
	sd	zero, 56(sp)
	sd	zero, 64(sp)
	sw	zero, 72(sp)
	beqz	a2, .Lnoise_BB13_17
	li	s0, 0
	j	.Lnoise_BB13_3
.Lnoise_BB13_2:
	addi	s0, s0, 1
	beq	a2, s0, .Lnoise_BB13_7
.Lnoise_BB13_3:
	add	a3, a1, s0
	lbu	a3, 0(a3)
	li	a4, 48
	bltu	a3, a4, .Lnoise_BB13_6
	li	a4, 58
	bltu	a3, a4, .Lnoise_BB13_2
	addi	a3, a3, -65
	li	a4, 25
	bgeu	a4, a3, .Lnoise_BB13_2
.Lnoise_BB13_6:
	bnez	s0, .Lnoise_BB13_8
	j	.Lnoise_BB13_17
.Lnoise_BB13_7:
	mv	s0, a2
	beqz	a2, .Lnoise_BB13_17
.Lnoise_BB13_8:
	lbu	a3, 0(a1)
	addi	a3, a3, -65
	li	a4, 25
	bltu	a4, a3, .Lnoise_BB13_17
	add	a3, a1, s0
	sub	a7, a2, s0
	addi	a4, a1, 1
	addi	a5, s0, -1
.Lnoise_BB13_10:
	beqz	a5, .Lnoise_BB13_14
	lbu	s1, 0(a4)
	li	a2, 48
	bltu	s1, a2, .Lnoise_BB13_17
	addi	a4, a4, 1
	li	a2, 58
	addi	a5, a5, -1
	bltu	s1, a2, .Lnoise_BB13_10
	addi	a2, s1, -65
	li	s1, 26
	bltu	a2, s1, .Lnoise_BB13_10
	j	.Lnoise_BB13_17
.Lnoise_BB13_14:
	li	a2, 9
	bgeu	s0, a2, .Lnoise_BB13_17
	beqz	a7, .Lnoise_BB13_30
	li	a5, 0
	sd	zero, 104(sp)
	sd	zero, 112(sp)
	sd	zero, 120(sp)
	j	.Lnoise_BB13_21
.Lnoise_BB13_17:
	li	a3, 1
	li	a4, 2
	addi	a1, a0, 8
	li	a2, 40
	sb	a3, 0(a0)
	sb	a4, 1(a0)
.Lnoise_BB13_18:
	mv	a0, a1
	li	a1, 0
	ld	ra, 200(sp)
	ld	s0, 192(sp)
	ld	s1, 184(sp)
	ld	s2, 176(sp)
	ld	s3, 168(sp)
	.cfi_restore ra
	.cfi_restore s0
	.cfi_restore s1
	.cfi_restore s2
	.cfi_restore s3
	addi	sp, sp, 208
	.cfi_def_cfa_offset 0
	tail	memset
.Lnoise_BB13_19:
	.cfi_restore_state
	.cfi_remember_state
	addi	a2, a4, -48
	addi	a4, sp, 104
	add	a4, a4, a5
	addi	s1, a5, 1
	sb	a2, 0(a4)
	li	a2, 4
	sd	s1, 120(sp)
	beq	a7, a2, .Lnoise_BB13_32
.Lnoise_BB13_20:
	lbu	a2, 4(a3)
	addi	a3, a3, 5
	li	a4, 43
	addi	a7, a7, -5
	mv	a5, s1
	bne	a2, a4, .Lnoise_BB13_39
.Lnoise_BB13_21:
	li	a6, 3
	bltu	a7, a6, .Lnoise_BB13_39
	beq	a7, a6, .Lnoise_BB13_39
	lbu	a2, 0(a3)
	li	a4, 112
	bne	a2, a4, .Lnoise_BB13_39
	lbu	a2, 1(a3)
	li	a4, 115
	bne	a2, a4, .Lnoise_BB13_39
	lbu	a2, 2(a3)
	li	a4, 107
	bne	a2, a4, .Lnoise_BB13_39
	lbu	a4, 3(a3)
	addi	a2, a4, -57
	zext.b	a2, a2
	li	s1, 247
	bltu	a2, s1, .Lnoise_BB13_39
	li	s1, 10
	bne	a5, s1, .Lnoise_BB13_19
	li	a2, 4
	bne	a7, a2, .Lnoise_BB13_20
	sd	zero, 128(sp)
	sd	zero, 136(sp)
	li	s1, 10
	j	.Lnoise_BB13_33
.Lnoise_BB13_30:
	mv	s1, a1
	mv	s3, a0
	addi	a0, sp, 54
	li	a2, 24
	li	a1, 0
	call	memset
.Lnoise_BB13_31:
	addi	s2, sp, 54
	li	a2, 16
	addi	a0, sp, 104
	sub	a2, a2, s0
	add	a0, a0, s0
	li	a1, 0
	call	memset
	addi	a0, sp, 104
	mv	a1, s1
	mv	a2, s0
	call	memcpy
	ld	a0, 104(sp)
	sd	s0, 112(sp)
	sd	a0, 128(sp)
	sd	s0, 136(sp)
	addi	a0, sp, 144
	li	a2, 24
	mv	a1, s2
	call	memcpy
	ld	a0, 128(sp)
	ld	a1, 136(sp)
	ld	a2, 144(sp)
	ld	a3, 152(sp)
	ld	a4, 160(sp)
	sd	a0, 8(sp)
	sd	a1, 16(sp)
	sd	a2, 24(sp)
	sd	a3, 32(sp)
	sb	zero, 0(s3)
	sb	zero, 1(s3)
	sd	a4, 40(sp)
	addi	a0, s3, 8
	addi	a1, sp, 8
	li	a2, 40
	call	memcpy
	ld	ra, 200(sp)
	ld	s0, 192(sp)
	ld	s1, 184(sp)
	ld	s2, 176(sp)
	ld	s3, 168(sp)
	.cfi_restore ra
	.cfi_restore s0
	.cfi_restore s1
	.cfi_restore s2
	.cfi_restore s3
	addi	sp, sp, 208
	.cfi_def_cfa_offset 0
	ret
.Lnoise_BB13_32:
	.cfi_restore_state
	sd	zero, 128(sp)
	sd	zero, 136(sp)
	sd	zero, 144(sp)
	beqz	s1, .Lnoise_BB13_37
.Lnoise_BB13_33:
	li	a2, 0
	li	a4, 0
.Lnoise_BB13_34:
	addi	a3, sp, 104
	add	a3, a3, a2
	lbu	a3, 0(a3)
	bltu	a3, a4, .Lnoise_BB13_38
	li	a4, 8
	bltu	a4, a3, .Lnoise_BB13_38
	addi	a4, sp, 128
	add	a4, a4, a2
	addi	a2, a2, 1
	sb	a3, 0(a4)
	sd	a2, 144(sp)
	addi	a4, a3, 1
	bne	s1, a2, .Lnoise_BB13_34
.Lnoise_BB13_37:
	mv	s1, a1
	mv	s3, a0
	ld	a0, 128(sp)
	ld	a1, 136(sp)
	ld	a2, 144(sp)
	sd	a0, 80(sp)
	sd	a1, 88(sp)
	sd	a2, 96(sp)
	addi	a0, sp, 54
	addi	a1, sp, 80
	li	a2, 24
	call	memcpy
	j	.Lnoise_BB13_31
.Lnoise_BB13_38:
	li	a6, 4
.Lnoise_BB13_39:
	li	a3, 1
	addi	a1, a0, 8
	li	a2, 40
	sb	a3, 0(a0)
	sb	a6, 1(a0)
	j	.Lnoise_BB13_18
.Lnoise_func_end13:
	.size	noise_noise_names_section_parse_section, .Lnoise_func_end13-noise_noise_names_section_parse_section
	.cfi_endproc

	.section	".text.noise_names::table::place_of","ax",@progbits
	.p2align	1
	.type	noise_noise_names_table_place_of,@function
noise_noise_names_table_place_of:
	.cfi_startproc
	beqz	a1, .Lnoise_BB14_30
	mv	a2, a0
	li	a0, 1
	bne	a1, a0, .Lnoise_BB14_6
	lbu	a1, 0(a2)
	li	a2, 88
	beq	a1, a2, .Lnoise_BB14_15
	li	a2, 78
	beq	a1, a2, .Lnoise_BB14_14
	li	a0, 75
	bne	a1, a0, .Lnoise_BB14_30
	li	a1, 1
	li	a0, 1
	ret
.Lnoise_BB14_6:
	li	a0, 2
	bltu	a0, a1, .Lnoise_BB14_30
	lbu	a0, 0(a2)
	li	a1, 77
	blt	a1, a0, .Lnoise_BB14_16
	li	a1, 73
	beq	a0, a1, .Lnoise_BB14_22
	li	a1, 75
	bne	a0, a1, .Lnoise_BB14_30
	lbu	a1, 1(a2)
	li	a2, 88
	li	a0, 1
	beq	a1, a2, .Lnoise_BB14_35
	li	a2, 78
	beq	a1, a2, .Lnoise_BB14_31
	li	a2, 75
	bne	a1, a2, .Lnoise_BB14_30
	li	a1, 7
	ret
.Lnoise_BB14_14:
	li	a1, 0
	ret
.Lnoise_BB14_15:
	li	a1, 2
	ret
.Lnoise_BB14_16:
	li	a3, 88
	beq	a0, a3, .Lnoise_BB14_26
	li	a1, 78
	bne	a0, a1, .Lnoise_BB14_30
	lbu	a1, 1(a2)
	li	a2, 88
	li	a0, 1
	beq	a1, a2, .Lnoise_BB14_36
	li	a2, 78
	beq	a1, a2, .Lnoise_BB14_32
	li	a2, 75
	bne	a1, a2, .Lnoise_BB14_30
	li	a1, 4
	ret
.Lnoise_BB14_22:
	lbu	a1, 1(a2)
	li	a2, 88
	li	a0, 1
	beq	a1, a2, .Lnoise_BB14_37
	li	a2, 78
	beq	a1, a2, .Lnoise_BB14_33
	li	a2, 75
	bne	a1, a2, .Lnoise_BB14_30
	li	a1, 13
	ret
.Lnoise_BB14_26:
	lbu	a1, 1(a2)
	li	a0, 1
	beq	a1, a3, .Lnoise_BB14_38
	li	a2, 78
	beq	a1, a2, .Lnoise_BB14_34
	li	a2, 75
	bne	a1, a2, .Lnoise_BB14_30
	li	a1, 10
	ret
.Lnoise_BB14_30:
	li	a1, 0
	li	a0, 0
	ret
.Lnoise_BB14_31:
	li	a1, 6
	ret
.Lnoise_BB14_32:
	li	a1, 3
	ret
.Lnoise_BB14_33:
	li	a1, 12
	ret
.Lnoise_BB14_34:
	li	a1, 9
	ret
.Lnoise_BB14_35:
	li	a1, 8
	ret
.Lnoise_BB14_36:
	li	a1, 5
	ret
.Lnoise_BB14_37:
	li	a1, 14
	ret
.Lnoise_BB14_38:
	li	a1, 11
	ret
.Lnoise_func_end14:
	.size	noise_noise_names_table_place_of, .Lnoise_func_end14-noise_noise_names_table_place_of
	.cfi_endproc

	.section	".text.noise_names::table::row","ax",@progbits
	.p2align	1
	.type	noise_noise_names_table_row,@function
noise_noise_names_table_row:
	.cfi_startproc
	addi	sp, sp, -2032
	.cfi_def_cfa_offset 2032
	sd	ra, 2024(sp)
	sd	s0, 2016(sp)
	sd	s1, 2008(sp)
	sd	s2, 2000(sp)
	sd	s3, 1992(sp)
	sd	s4, 1984(sp)
	sd	s5, 1976(sp)
	sd	s6, 1968(sp)
	sd	s7, 1960(sp)
	sd	s8, 1952(sp)
	sd	s9, 1944(sp)
	sd	s10, 1936(sp)
	sd	s11, 1928(sp)
	.cfi_offset ra, -8
	.cfi_offset s0, -16
	.cfi_offset s1, -24
	.cfi_offset s2, -32
	.cfi_offset s3, -40
	.cfi_offset s4, -48
	.cfi_offset s5, -56
	.cfi_offset s6, -64
	.cfi_offset s7, -72
	.cfi_offset s8, -80
	.cfi_offset s9, -88
	.cfi_offset s10, -96
	.cfi_offset s11, -104
	addi	sp, sp, -928
	.cfi_def_cfa_offset 2960
	mv	s1, a1
	mv	s0, a0
	addi	s2, sp, 1936
	sd	zero, 176(sp)
	sd	zero, 184(sp)
	sd	zero, 192(sp)
	sd	zero, 160(sp)
	sw	zero, 168(sp)
	sd	zero, 144(sp)
	sw	zero, 152(sp)
	sd	zero, 128(sp)
	sw	zero, 136(sp)
	addi	a0, sp, 8
	li	a2, 120
	li	a1, 0
	call	memset
	zext.b	a0, s1
	li	a1, 13
	bltu	a1, a0, .Lnoise_BB15_17
	slli	a0, a0, 2
.Lnoise_pcrel_hi4:
	auipc	a1, %pcrel_hi(.Lnoise_JTI15_0)
	addi	a1, a1, %pcrel_lo(.Lnoise_pcrel_hi4)
	add	a0, a0, a1
	lw	a0, 0(a0)
	add	a0, a0, a1
	jr	a0
.Lnoise_BB15_2:
	sd	zero, 368(sp)
	sw	zero, 376(sp)
	sd	zero, 336(sp)
	sw	zero, 344(sp)
	sd	zero, 320(sp)
	sw	zero, 328(sp)
	addi	a0, sp, 200
	li	a2, 120
	li	a1, 0
	call	memset
	ld	a0, 368(sp)
	lw	a1, 376(sp)
	ld	a2, 336(sp)
	lw	a3, 344(sp)
	sd	a0, 352(sp)
	sw	a1, 360(sp)
	sd	a0, 160(sp)
	sw	a1, 168(sp)
	sd	a2, 144(sp)
	sw	a3, 152(sp)
	ld	a0, 320(sp)
	lw	a1, 328(sp)
	sd	zero, 176(sp)
	sd	zero, 184(sp)
	sd	zero, 192(sp)
	sd	a0, 128(sp)
	sw	a1, 136(sp)
	addi	a0, sp, 8
	addi	a1, sp, 200
	li	a2, 120
	call	memcpy
	li	s5, 0
	li	s2, 0
	li	s4, 0
	li	s8, 0
	li	s6, 0
	li	s7, 0
	li	s1, 0
	li	a0, 78
	li	s3, 1
	li	s9, 2
	li	s10, 768
	j	.Lnoise_BB15_8
.Lnoise_BB15_3:
	sd	zero, 368(s2)
	sw	zero, 376(s2)
	sd	zero, 336(s2)
	sw	zero, 344(s2)
	sd	zero, 352(s2)
	sw	zero, 360(s2)
	addi	a0, sp, 2047
	addi	a0, a0, 105
	li	a2, 120
	li	a1, 0
	call	memset
	sd	zero, 720(s2)
	sw	zero, 728(s2)
	sd	zero, 336(s2)
	sw	zero, 344(s2)
	sd	zero, 352(s2)
	sw	zero, 360(s2)
	ld	a0, 368(s2)
	lw	a1, 376(s2)
	ld	a2, 336(s2)
	lw	a3, 344(s2)
	ld	a4, 352(s2)
	lw	a5, 360(s2)
	sd	a0, 160(sp)
	sw	a1, 168(sp)
	sd	a4, 144(sp)
	sw	a5, 152(sp)
	sd	zero, 176(sp)
	sd	zero, 184(sp)
	sd	zero, 192(sp)
	sd	a2, 128(sp)
	sw	a3, 136(sp)
	addi	a0, sp, 8
	addi	a1, sp, 2047
	addi	a1, a1, 105
	li	a2, 120
	call	memcpy
	li	s7, 0
	li	s10, 0
	li	s1, 0
	li	s11, 0
	li	s3, 3
	li	s9, 1
	li	s6, 4
	li	s8, 512
	li	s4, 1025
	li	s2, 2
	li	s5, 769
	lui	a0, 6
	addi	a0, a0, -1960
	j	.Lnoise_BB15_18
.Lnoise_BB15_4:
	sd	zero, 720(s2)
	sw	zero, 728(s2)
	sd	zero, 1056(sp)
	sw	zero, 1064(sp)
	addi	a0, sp, 936
	li	a2, 120
	li	a1, 0
	call	memset
	ld	a0, 720(s2)
	lw	a1, 728(s2)
	sd	zero, 720(s2)
	sw	zero, 728(s2)
	ld	a2, 720(s2)
	lw	a3, 728(s2)
	sd	a0, 1088(sp)
	sw	a1, 1096(sp)
	sd	a2, 1072(sp)
	sw	a3, 1080(sp)
	ld	a0, 1088(sp)
	lw	a1, 1096(sp)
	ld	a2, 1072(sp)
	lw	a3, 1080(sp)
	sd	a0, 160(sp)
	sw	a1, 168(sp)
	sd	a2, 144(sp)
	sw	a3, 152(sp)
	ld	a0, 1056(sp)
	lw	a1, 1064(sp)
	sd	zero, 176(sp)
	sd	zero, 184(sp)
	sd	zero, 192(sp)
	sd	a0, 128(sp)
	sw	a1, 136(sp)
	addi	a0, sp, 8
	addi	a1, sp, 936
	li	a2, 120
	call	memcpy
	li	s5, 0
	li	s2, 0
	li	s4, 0
	li	s7, 0
	li	s1, 0
	li	s11, 1
	li	s10, 768
	li	s6, 2
	li	s8, 512
	lui	a0, 5
	li	s9, 2
	li	s3, 2
	addi	a0, a0, -1202
	j	.Lnoise_BB15_18
.Lnoise_BB15_5:
	sd	zero, 720(s2)
	sw	zero, 728(s2)
	sd	zero, 504(s2)
	sw	zero, 512(s2)
	addi	a0, sp, 2047
	addi	a0, a0, 273
	li	a2, 120
	li	a1, 0
	call	memset
	ld	a0, 720(s2)
	lw	a1, 728(s2)
	sd	zero, 720(s2)
	sw	zero, 728(s2)
	ld	a2, 720(s2)
	lw	a3, 728(s2)
	sd	a2, 520(s2)
	sw	a3, 528(s2)
	sd	a0, 536(s2)
	sw	a1, 544(s2)
	ld	a0, 536(s2)
	lw	a1, 544(s2)
	ld	a2, 504(s2)
	lw	a3, 512(s2)
	ld	a4, 520(s2)
	lw	a5, 528(s2)
	sd	a0, 160(sp)
	sw	a1, 168(sp)
	sd	a4, 144(sp)
	sw	a5, 152(sp)
	sd	zero, 176(sp)
	sd	zero, 184(sp)
	sd	zero, 192(sp)
	sd	a2, 128(sp)
	sw	a3, 136(sp)
	addi	a0, sp, 8
	addi	a1, sp, 2047
	addi	a1, a1, 273
	li	a2, 120
	call	memcpy
	li	s2, 0
	li	s4, 0
	li	s7, 0
	li	s1, 0
	li	s11, 0
	li	s9, 2
	li	s10, 256
	li	s6, 3
	li	s8, 512
	li	s5, 4
	lui	a0, 5
	li	s3, 2
	addi	a0, a0, -439
	j	.Lnoise_BB15_18
.Lnoise_BB15_6:
	sd	zero, 32(s2)
	sw	zero, 40(s2)
	sd	zero, 0(s2)
	sw	zero, 8(s2)
	sd	zero, 16(s2)
	sw	zero, 24(s2)
	addi	a0, sp, 1816
	li	a2, 120
	li	a1, 0
	call	memset
	sd	zero, 720(s2)
	sw	zero, 728(s2)
	sd	zero, 0(s2)
	sw	zero, 8(s2)
	sd	zero, 16(s2)
	sw	zero, 24(s2)
	ld	a0, 32(s2)
	lw	a1, 40(s2)
	ld	a2, 0(s2)
	lw	a3, 8(s2)
	ld	a4, 16(s2)
	lw	a5, 24(s2)
	sd	a0, 160(sp)
	sw	a1, 168(sp)
	sd	a4, 144(sp)
	sw	a5, 152(sp)
	sd	zero, 176(sp)
	sd	zero, 184(sp)
	sd	zero, 192(sp)
	sd	a2, 128(sp)
	sw	a3, 136(sp)
	addi	a0, sp, 8
	addi	a1, sp, 1816
	li	a2, 120
	call	memcpy
	li	s5, 0
	li	s7, 0
	li	s10, 0
	li	s1, 0
	li	s11, 0
	li	s3, 3
	li	s9, 1
	li	s8, 512
	li	s4, 1025
	li	s2, 2
	lui	a0, 5
	li	s6, 2
	addi	a0, a0, -424
	j	.Lnoise_BB15_18
.Lnoise_BB15_7:
	sd	zero, 736(sp)
	sw	zero, 744(sp)
	sd	zero, 704(sp)
	sw	zero, 712(sp)
	sd	zero, 688(sp)
	sw	zero, 696(sp)
	addi	a0, sp, 568
	li	a2, 120
	li	a1, 0
	call	memset
	ld	a0, 736(sp)
	lw	a1, 744(sp)
	ld	a2, 704(sp)
	lw	a3, 712(sp)
	sd	a0, 720(sp)
	sw	a1, 728(sp)
	sd	a0, 160(sp)
	sw	a1, 168(sp)
	sd	a2, 144(sp)
	sw	a3, 152(sp)
	ld	a0, 688(sp)
	lw	a1, 696(sp)
	sd	zero, 176(sp)
	sd	zero, 184(sp)
	sd	zero, 192(sp)
	sd	a0, 128(sp)
	sw	a1, 136(sp)
	addi	a0, sp, 8
	addi	a1, sp, 568
	li	a2, 120
	call	memcpy
	li	s5, 0
	li	s2, 0
	li	s4, 0
	li	s8, 0
	li	s6, 0
	li	s1, 0
	li	a0, 88
	li	s3, 1
	li	s9, 4
	li	s10, 768
	li	s7, 1281
.Lnoise_BB15_8:
	li	a1, 1
	li	s11, 1
	j	.Lnoise_BB15_19
.Lnoise_BB15_9:
	sd	zero, 904(sp)
	sw	zero, 912(sp)
	sd	zero, 888(sp)
	sw	zero, 896(sp)
	sd	zero, 872(sp)
	sw	zero, 880(sp)
	addi	a0, sp, 752
	li	a2, 120
	li	a1, 0
	call	memset
	sd	zero, 920(sp)
	sw	zero, 928(sp)
	sd	zero, 888(sp)
	sw	zero, 896(sp)
	ld	a0, 904(sp)
	lw	a1, 912(sp)
	sd	zero, 176(sp)
	sd	zero, 184(sp)
	sd	zero, 192(sp)
	sd	a0, 160(sp)
	sw	a1, 168(sp)
	ld	a0, 872(sp)
	lw	a1, 880(sp)
	sd	zero, 144(sp)
	sw	zero, 152(sp)
	sd	a0, 128(sp)
	sw	a1, 136(sp)
	addi	a0, sp, 8
	addi	a1, sp, 752
	li	a2, 120
	call	memcpy
	li	s5, 0
	li	s2, 0
	li	s4, 0
	li	s7, 0
	li	s10, 0
	li	s1, 0
	li	s11, 0
	li	s9, 1
	li	s6, 2
	li	s8, 512
	lui	a0, 5
	li	s3, 2
	addi	a0, a0, -434
	j	.Lnoise_BB15_18
.Lnoise_BB15_10:
	sd	zero, 720(s2)
	sw	zero, 728(s2)
	sd	zero, 1592(sp)
	sw	zero, 1600(sp)
	addi	a0, sp, 1472
	li	a2, 120
	li	a1, 0
	call	memset
	ld	a0, 720(s2)
	lw	a1, 728(s2)
	sd	zero, 720(s2)
	sw	zero, 728(s2)
	ld	a2, 720(s2)
	lw	a3, 728(s2)
	sd	a0, 1624(sp)
	sw	a1, 1632(sp)
	sd	a2, 1608(sp)
	sw	a3, 1616(sp)
	ld	a0, 1624(sp)
	lw	a1, 1632(sp)
	ld	a2, 1608(sp)
	lw	a3, 1616(sp)
	sd	a0, 160(sp)
	sw	a1, 168(sp)
	sd	a2, 144(sp)
	sw	a3, 152(sp)
	ld	a0, 1592(sp)
	lw	a1, 1600(sp)
	sd	zero, 176(sp)
	sd	zero, 184(sp)
	sd	zero, 192(sp)
	sd	a0, 128(sp)
	sw	a1, 136(sp)
	addi	a0, sp, 8
	addi	a1, sp, 1472
	li	a2, 120
	call	memcpy
	li	s2, 0
	li	s4, 0
	li	s1, 1
	li	s3, 2
	li	s10, 768
	li	s7, 5
	li	s6, 3
	li	s8, 512
	li	s5, 4
	lui	a0, 5
	li	s9, 3
	li	a1, 2
	addi	a0, a0, -1205
	li	s11, 1
	j	.Lnoise_BB15_19
.Lnoise_BB15_11:
	sd	zero, 552(sp)
	sw	zero, 560(sp)
	sd	zero, 520(sp)
	sw	zero, 528(sp)
	sd	zero, 504(sp)
	sw	zero, 512(sp)
	addi	a0, sp, 384
	li	a2, 120
	li	a1, 0
	call	memset
	ld	a0, 552(sp)
	lw	a1, 560(sp)
	ld	a2, 520(sp)
	lw	a3, 528(sp)
	sd	a0, 536(sp)
	sw	a1, 544(sp)
	sd	a0, 160(sp)
	sw	a1, 168(sp)
	sd	a2, 144(sp)
	sw	a3, 152(sp)
	ld	a0, 504(sp)
	lw	a1, 512(sp)
	sd	zero, 176(sp)
	sd	zero, 184(sp)
	sd	zero, 192(sp)
	sd	a0, 128(sp)
	sw	a1, 136(sp)
	addi	a0, sp, 8
	addi	a1, sp, 384
	li	a2, 120
	call	memcpy
	li	s5, 0
	li	s2, 0
	li	s4, 0
	li	s8, 0
	li	s6, 0
	li	a0, 75
	li	s3, 1
	li	s9, 3
	li	s10, 768
	li	s7, 5
	li	a1, 1
	li	s1, 1
	li	s11, 1
	j	.Lnoise_BB15_19
.Lnoise_BB15_12:
	sd	zero, 1256(sp)
	sw	zero, 1264(sp)
	sd	zero, 1240(sp)
	sw	zero, 1248(sp)
	sd	zero, 1224(sp)
	sw	zero, 1232(sp)
	addi	a0, sp, 1104
	li	a2, 120
	li	a1, 0
	call	memset
	sd	zero, 1272(sp)
	sw	zero, 1280(sp)
	sd	zero, 1240(sp)
	sw	zero, 1248(sp)
	ld	a0, 1256(sp)
	lw	a1, 1264(sp)
	sd	zero, 176(sp)
	sd	zero, 184(sp)
	sd	zero, 192(sp)
	sd	a0, 160(sp)
	sw	a1, 168(sp)
	ld	a0, 1224(sp)
	lw	a1, 1232(sp)
	sd	zero, 144(sp)
	sw	zero, 152(sp)
	sd	a0, 128(sp)
	sw	a1, 136(sp)
	addi	a0, sp, 8
	addi	a1, sp, 1104
	li	a2, 120
	call	memcpy
	li	s2, 0
	li	s4, 0
	li	s7, 0
	li	s10, 0
	li	s1, 0
	li	s11, 0
	li	s3, 2
	li	s9, 1
	li	s6, 4
	li	s8, 512
	li	s5, 769
	lui	a0, 6
	addi	a0, a0, -1970
	j	.Lnoise_BB15_18
.Lnoise_BB15_13:
	sd	zero, 672(s2)
	sw	zero, 680(s2)
	sd	zero, 720(s2)
	sw	zero, 728(s2)
	addi	a0, sp, 2047
	addi	a0, a0, 441
	li	a2, 120
	li	a1, 0
	call	memset
	ld	a0, 720(s2)
	lw	a1, 728(s2)
	sd	a0, 704(s2)
	sw	a1, 712(s2)
	sd	zero, 720(s2)
	sw	zero, 728(s2)
	ld	a0, 720(s2)
	lw	a1, 728(s2)
	lw	a2, 712(s2)
	ld	a3, 704(s2)
	sd	a0, 688(s2)
	sw	a1, 696(s2)
	ld	a0, 672(s2)
	lw	a1, 680(s2)
	ld	a4, 688(s2)
	lw	a5, 696(s2)
	sd	a3, 160(sp)
	sw	a2, 168(sp)
	sd	a4, 144(sp)
	sw	a5, 152(sp)
	sd	zero, 176(sp)
	sd	zero, 184(sp)
	sd	zero, 192(sp)
	sd	a0, 128(sp)
	sw	a1, 136(sp)
	addi	a0, sp, 8
	addi	a1, sp, 2047
	addi	a1, a1, 441
	li	a2, 120
	call	memcpy
	li	s2, 0
	li	s4, 0
	li	s1, 0
	li	s11, 1
	li	s3, 2
	li	s5, 4
	li	s10, 768
	li	s7, 1281
	li	s6, 3
	li	s8, 512
	lui	a0, 5
	li	s9, 4
	addi	a0, a0, -1207
	j	.Lnoise_BB15_18
.Lnoise_BB15_14:
	sd	zero, 1440(sp)
	sw	zero, 1448(sp)
	sd	zero, 1424(sp)
	sw	zero, 1432(sp)
	sd	zero, 1408(sp)
	sw	zero, 1416(sp)
	addi	a0, sp, 1288
	li	a2, 120
	li	a1, 0
	call	memset
	sd	zero, 1456(sp)
	sw	zero, 1464(sp)
	sd	zero, 1424(sp)
	sw	zero, 1432(sp)
	ld	a0, 1440(sp)
	lw	a1, 1448(sp)
	sd	zero, 176(sp)
	sd	zero, 184(sp)
	sd	zero, 192(sp)
	sd	a0, 160(sp)
	sw	a1, 168(sp)
	ld	a0, 1408(sp)
	lw	a1, 1416(sp)
	sd	zero, 144(sp)
	sw	zero, 152(sp)
	sd	a0, 128(sp)
	sw	a1, 136(sp)
	addi	a0, sp, 8
	addi	a1, sp, 1288
	li	a2, 120
	call	memcpy
	li	s2, 0
	li	s4, 0
	li	s7, 0
	li	s10, 0
	li	s11, 0
	li	s3, 2
	li	s9, 1
	li	s6, 3
	li	s8, 512
	li	s5, 4
	lui	a0, 5
	li	a1, 2
	addi	a0, a0, -437
	li	s1, 1
	j	.Lnoise_BB15_19
.Lnoise_BB15_15:
	sd	zero, 720(s2)
	sw	zero, 728(s2)
	addi	a0, sp, 1984
	li	a2, 120
	li	a1, 0
	call	memset
	ld	a0, 720(s2)
	lw	a1, 728(s2)
	sd	zero, 720(s2)
	sw	zero, 728(s2)
	ld	a2, 720(s2)
	lw	a3, 728(s2)
	sd	zero, 720(s2)
	sw	zero, 728(s2)
	ld	a4, 720(s2)
	lw	a5, 728(s2)
	sd	a0, 200(s2)
	sw	a1, 208(s2)
	ld	a0, 200(s2)
	lw	a1, 208(s2)
	sd	a4, 168(s2)
	sw	a5, 176(s2)
	sd	a2, 184(s2)
	sw	a3, 192(s2)
	ld	a2, 168(s2)
	lw	a3, 176(s2)
	ld	a4, 184(s2)
	lw	a5, 192(s2)
	sd	a0, 160(sp)
	sw	a1, 168(sp)
	sd	a4, 144(sp)
	sw	a5, 152(sp)
	sd	zero, 176(sp)
	sd	zero, 184(sp)
	sd	zero, 192(sp)
	sd	a2, 128(sp)
	sw	a3, 136(sp)
	addi	a0, sp, 8
	addi	a1, sp, 1984
	li	a2, 120
	call	memcpy
	li	s5, 0
	li	s7, 0
	li	s1, 0
	li	s11, 1
	li	s3, 3
	li	s10, 768
	li	s8, 512
	li	s4, 1025
	li	s2, 2
	lui	a0, 5
	li	s6, 2
	li	s9, 2
	addi	a0, a0, -1192
	j	.Lnoise_BB15_18
.Lnoise_BB15_16:
	sd	zero, 1792(sp)
	sw	zero, 1800(sp)
	sd	zero, 1776(sp)
	sw	zero, 1784(sp)
	sd	zero, 1760(sp)
	sw	zero, 1768(sp)
	addi	a0, sp, 1640
	li	a2, 120
	li	a1, 0
	call	memset
	addi	a0, sp, 1805
	li	a2, 11
	li	a1, 0
	call	memset
	li	a0, 3
	sd	zero, 176(sp)
	sd	zero, 184(sp)
	sd	zero, 192(sp)
	ld	a1, 1792(sp)
	lw	a2, 1800(sp)
	sb	a0, 1804(sp)
	lwu	a0, 1804(sp)
	lw	a3, 1808(sp)
	lw	a4, 1812(sp)
	sd	a1, 160(sp)
	sw	a2, 168(sp)
	slli	a3, a3, 32
	or	a0, a0, a3
	ld	a1, 1760(sp)
	lw	a2, 1768(sp)
	sd	a0, 1776(sp)
	sw	a4, 1784(sp)
	sd	a0, 144(sp)
	sw	a4, 152(sp)
	sd	a1, 128(sp)
	sw	a2, 136(sp)
	addi	a0, sp, 8
	addi	a1, sp, 1640
	li	a2, 120
	call	memcpy
	li	s2, 0
	li	s4, 0
	li	s7, 0
	li	s10, 0
	li	s11, 0
	li	s3, 2
	li	s9, 1
	li	s6, 5
	li	s8, 512
	li	s5, 260
	lui	a0, 6
	li	a1, 2
	addi	a0, a0, -1973
	li	s1, 1
	j	.Lnoise_BB15_19
.Lnoise_BB15_17:
	sd	zero, 720(s2)
	sw	zero, 728(s2)
	sd	zero, 856(s2)
	sw	zero, 864(s2)
	addi	a0, sp, 2047
	addi	a0, a0, 625
	li	a2, 120
	li	a1, 0
	call	memset
	ld	a0, 720(s2)
	lw	a1, 728(s2)
	sd	a0, 888(s2)
	sw	a1, 896(s2)
	addi	a0, sp, 2047
	addi	a0, a0, 794
	li	a2, 11
	li	a1, 0
	call	memset
	li	a0, 3
	ld	a1, 856(s2)
	lw	a2, 864(s2)
	ld	a3, 888(s2)
	lw	a4, 896(s2)
	sb	a0, 904(s2)
	ld	a0, 904(s2)
	lw	a5, 912(s2)
	sd	a3, 160(sp)
	sw	a4, 168(sp)
	sd	a0, 720(s2)
	sw	a5, 728(s2)
	sd	a0, 872(s2)
	sw	a5, 880(s2)
	sd	zero, 176(sp)
	sd	zero, 184(sp)
	sd	zero, 192(sp)
	sd	a0, 144(sp)
	sw	a5, 152(sp)
	sd	a1, 128(sp)
	sw	a2, 136(sp)
	addi	a0, sp, 8
	addi	a1, sp, 2047
	addi	a1, a1, 625
	li	a2, 120
	call	memcpy
	li	s2, 0
	li	s4, 0
	li	s7, 0
	li	s1, 0
	li	s11, 0
	li	s9, 2
	li	s10, 256
	li	s6, 5
	li	s8, 512
	li	s5, 260
	lui	a0, 6
	li	s3, 2
	addi	a0, a0, -1975
.Lnoise_BB15_18:
	li	a1, 2
.Lnoise_BB15_19:
	sb	zero, 4(s0)
	sb	zero, 5(s0)
	sb	zero, 6(s0)
	sb	zero, 7(s0)
	srli	a2, a0, 8
	sb	zero, 12(s0)
	sb	zero, 13(s0)
	sb	zero, 14(s0)
	sb	zero, 15(s0)
	sb	a1, 8(s0)
	sb	zero, 9(s0)
	sb	zero, 10(s0)
	sb	zero, 11(s0)
	sb	a0, 0(s0)
	sb	a2, 1(s0)
	sb	zero, 2(s0)
	sb	zero, 3(s0)
	addi	a0, s0, 16
	addi	a1, sp, 176
	li	a2, 24
	call	memcpy
	sb	zero, 44(s0)
	sb	zero, 45(s0)
	sb	zero, 46(s0)
	sb	zero, 47(s0)
	sb	s1, 40(s0)
	sb	zero, 41(s0)
	sb	zero, 42(s0)
	sb	zero, 43(s0)
	sb	zero, 52(s0)
	sb	zero, 53(s0)
	sb	zero, 54(s0)
	sb	zero, 55(s0)
	sb	s1, 48(s0)
	sb	zero, 49(s0)
	sb	zero, 50(s0)
	sb	zero, 51(s0)
	sb	zero, 60(s0)
	sb	zero, 61(s0)
	sb	zero, 62(s0)
	sb	zero, 63(s0)
	sb	s11, 56(s0)
	sb	zero, 57(s0)
	sb	zero, 58(s0)
	sb	zero, 59(s0)
	sb	zero, 68(s0)
	sb	zero, 69(s0)
	sb	zero, 70(s0)
	sb	zero, 71(s0)
	sb	s11, 64(s0)
	sb	zero, 65(s0)
	sb	zero, 66(s0)
	sb	zero, 67(s0)
	srli	a0, s10, 8
	srli	a1, s7, 8
	sb	s10, 72(s0)
	sb	a0, 73(s0)
	sb	s7, 74(s0)
	sb	a1, 75(s0)
	addi	a0, s0, 76
	addi	a1, sp, 160
	li	a2, 12
	call	memcpy
	sb	zero, 92(s0)
	sb	zero, 93(s0)
	sb	zero, 94(s0)
	sb	zero, 95(s0)
	sb	s9, 88(s0)
	sb	zero, 89(s0)
	sb	zero, 90(s0)
	sb	zero, 91(s0)
	srli	a0, s8, 8
	srli	a1, s5, 8
	sb	s8, 96(s0)
	sb	a0, 97(s0)
	sb	s5, 98(s0)
	sb	a1, 99(s0)
	addi	a0, s0, 100
	addi	a1, sp, 144
	li	a2, 12
	call	memcpy
	sb	zero, 116(s0)
	sb	zero, 117(s0)
	sb	zero, 118(s0)
	sb	zero, 119(s0)
	sb	s6, 112(s0)
	sb	zero, 113(s0)
	sb	zero, 114(s0)
	sb	zero, 115(s0)
	srli	a0, s4, 8
	sb	s4, 120(s0)
	sb	a0, 121(s0)
	sb	zero, 122(s0)
	sb	zero, 123(s0)
	addi	a0, s0, 124
	addi	a1, sp, 128
	li	a2, 12
	call	memcpy
	sb	zero, 140(s0)
	sb	zero, 141(s0)
	sb	zero, 142(s0)
	sb	zero, 143(s0)
	sb	s2, 136(s0)
	sb	zero, 137(s0)
	sb	zero, 138(s0)
	sb	zero, 139(s0)
	addi	a0, s0, 144
	addi	a1, sp, 8
	li	a2, 120
	call	memcpy
	sb	zero, 268(s0)
	sb	zero, 269(s0)
	sb	zero, 270(s0)
	sb	zero, 271(s0)
	sb	s3, 264(s0)
	sb	zero, 265(s0)
	sb	zero, 266(s0)
	sb	zero, 267(s0)
	addi	sp, sp, 928
	.cfi_def_cfa_offset 2032
	ld	ra, 2024(sp)
	ld	s0, 2016(sp)
	ld	s1, 2008(sp)
	ld	s2, 2000(sp)
	ld	s3, 1992(sp)
	ld	s4, 1984(sp)
	ld	s5, 1976(sp)
	ld	s6, 1968(sp)
	ld	s7, 1960(sp)
	ld	s8, 1952(sp)
	ld	s9, 1944(sp)
	ld	s10, 1936(sp)
	ld	s11, 1928(sp)
	.cfi_restore ra
	.cfi_restore s0
	.cfi_restore s1
	.cfi_restore s2
	.cfi_restore s3
	.cfi_restore s4
	.cfi_restore s5
	.cfi_restore s6
	.cfi_restore s7
	.cfi_restore s8
	.cfi_restore s9
	.cfi_restore s10
	.cfi_restore s11
	addi	sp, sp, 2032
	.cfi_def_cfa_offset 0
	ret
.Lnoise_func_end15:
	.size	noise_noise_names_table_row, .Lnoise_func_end15-noise_noise_names_table_row
	.cfi_endproc
	.section	".rodata.noise_names::table::row","a",@progbits
	.p2align	2, 0x0
.Lnoise_JTI15_0:
	.word	.Lnoise_BB15_2-.Lnoise_JTI15_0
	.word	.Lnoise_BB15_11-.Lnoise_JTI15_0
	.word	.Lnoise_BB15_7-.Lnoise_JTI15_0
	.word	.Lnoise_BB15_9-.Lnoise_JTI15_0
	.word	.Lnoise_BB15_4-.Lnoise_JTI15_0
	.word	.Lnoise_BB15_12-.Lnoise_JTI15_0
	.word	.Lnoise_BB15_14-.Lnoise_JTI15_0
	.word	.Lnoise_BB15_10-.Lnoise_JTI15_0
	.word	.Lnoise_BB15_16-.Lnoise_JTI15_0
	.word	.Lnoise_BB15_6-.Lnoise_JTI15_0
	.word	.Lnoise_BB15_15-.Lnoise_JTI15_0
	.word	.Lnoise_BB15_3-.Lnoise_JTI15_0
	.word	.Lnoise_BB15_5-.Lnoise_JTI15_0
	.word	.Lnoise_BB15_13-.Lnoise_JTI15_0

	.section	".text.noise_names::text::read::read_line","ax",@progbits
	.p2align	1
	.type	noise_noise_names_text_read_read_line,@function
noise_noise_names_text_read_read_line:
	.cfi_startproc
	addi	sp, sp, -64
	.cfi_def_cfa_offset 64
	sd	ra, 56(sp)
	sd	s0, 48(sp)
	sd	s1, 40(sp)
	sd	s2, 32(sp)
	.cfi_offset ra, -8
	.cfi_offset s0, -16
	.cfi_offset s1, -24
	.cfi_offset s2, -32
	.cfi_remember_state
	li	a4, 5
	bltu	a3, a4, .Lnoise_BB16_49
	lbu	a5, 0(a2)
	lbu	a4, 1(a2)
	lbu	t0, 2(a2)
	lbu	a7, 3(a2)
	lbu	a6, 4(a2)
	li	t1, 32
	bne	a5, t1, .Lnoise_BB16_7
	bne	a4, t1, .Lnoise_BB16_7
	li	s0, 45
	bne	t0, s0, .Lnoise_BB16_7
	li	s0, 62
	bne	a7, s0, .Lnoise_BB16_7
	li	s0, 32
	bne	a6, s0, .Lnoise_BB16_7
	zext.b	a1, a1
	beqz	a1, .Lnoise_BB16_13
	j	.Lnoise_BB16_49
.Lnoise_BB16_7:
	bne	a5, t1, .Lnoise_BB16_49
	li	a5, 32
	bne	a4, a5, .Lnoise_BB16_49
	li	a4, 60
	bne	t0, a4, .Lnoise_BB16_49
	li	a4, 45
	bne	a7, a4, .Lnoise_BB16_49
	li	a4, 32
	bne	a6, a4, .Lnoise_BB16_49
	li	a4, 1
	zext.b	a1, a1
	bne	a4, a1, .Lnoise_BB16_49
.Lnoise_BB16_13:
	li	a7, 0
	addi	a3, a3, -5
	addi	a2, a2, 5
	sd	zero, 16(sp)
	sd	zero, 24(sp)
.Lnoise_BB16_14:
	beqz	a3, .Lnoise_BB16_45
	li	a4, 0
.Lnoise_BB16_16:
	add	a5, a2, a4
	lbu	a5, 0(a5)
	addi	a5, a5, -97
	li	s0, 25
	bltu	s0, a5, .Lnoise_BB16_19
	addi	a4, a4, 1
	bne	a3, a4, .Lnoise_BB16_16
	mv	a4, a3
.Lnoise_BB16_19:
	li	a5, 1
	beq	a4, a5, .Lnoise_BB16_27
	beqz	a4, .Lnoise_BB16_45
	li	a5, 2
	bltu	a5, a4, .Lnoise_BB16_30
	lbu	a5, 0(a2)
	li	s0, 115
	beq	a5, s0, .Lnoise_BB16_40
	li	s0, 101
	bne	a5, s0, .Lnoise_BB16_45
	lbu	a5, 1(a2)
	beq	a5, s0, .Lnoise_BB16_44
	li	s0, 115
	bne	a5, s0, .Lnoise_BB16_45
	li	a6, 3
	j	.Lnoise_BB16_35
.Lnoise_BB16_27:
	lbu	a5, 0(a2)
	li	s0, 101
	beq	a5, s0, .Lnoise_BB16_34
	li	s0, 115
	bne	a5, s0, .Lnoise_BB16_45
	li	a6, 1
	j	.Lnoise_BB16_35
.Lnoise_BB16_30:
	li	a5, 3
	bne	a4, a5, .Lnoise_BB16_45
	lbu	a5, 0(a2)
	li	s0, 112
	bne	a5, s0, .Lnoise_BB16_45
	lbu	a5, 1(a2)
	li	s0, 115
	bne	a5, s0, .Lnoise_BB16_45
	lbu	s0, 2(a2)
	li	a6, 107
	mv	a5, a7
	beq	s0, a6, .Lnoise_BB16_37
	j	.Lnoise_BB16_45
.Lnoise_BB16_34:
	li	a6, 0
.Lnoise_BB16_35:
	li	a5, 8
	beq	a7, a5, .Lnoise_BB16_37
	addi	a5, sp, 16
	add	s0, a5, a7
	addi	a5, a7, 1
	sb	a6, 0(s0)
	sd	a5, 24(sp)
.Lnoise_BB16_37:
	sub	s0, a3, a4
	li	a1, 2
	add	a4, a4, a2
	bltu	s0, a1, .Lnoise_BB16_46
	lbu	a1, 0(a4)
	li	a2, 44
	bne	a1, a2, .Lnoise_BB16_46
	lbu	a1, 1(a4)
	addi	a2, a4, 2
	li	a6, 32
	addi	a3, s0, -2
	mv	a7, a5
	beq	a1, a6, .Lnoise_BB16_14
	j	.Lnoise_BB16_46
.Lnoise_BB16_40:
	lbu	a5, 1(a2)
	li	s0, 101
	beq	a5, s0, .Lnoise_BB16_43
	li	s0, 115
	bne	a5, s0, .Lnoise_BB16_45
	li	a6, 5
	j	.Lnoise_BB16_35
.Lnoise_BB16_43:
	li	a6, 4
	j	.Lnoise_BB16_35
.Lnoise_BB16_44:
	li	a6, 2
	j	.Lnoise_BB16_35
.Lnoise_BB16_45:
	ld	a1, 16(sp)
	ld	a4, 24(sp)
	sd	a1, 0(sp)
	sd	a4, 8(sp)
	bnez	a3, .Lnoise_BB16_47
	j	.Lnoise_BB16_49
.Lnoise_BB16_46:
	ld	a1, 16(sp)
	ld	a2, 24(sp)
	sd	a1, 0(sp)
	sd	a2, 8(sp)
	mv	a2, a4
	mv	a3, s0
	beqz	s0, .Lnoise_BB16_49
.Lnoise_BB16_47:
	lbu	a1, 0(a2)
	li	a4, 10
	bne	a1, a4, .Lnoise_BB16_49
	addi	s2, a3, -1
	addi	s1, a2, 1
	sb	zero, 4(a0)
	sb	zero, 5(a0)
	sb	zero, 6(a0)
	sb	zero, 7(a0)
	li	a1, 1
	sb	a1, 0(a0)
	sb	zero, 1(a0)
	sb	zero, 2(a0)
	sb	zero, 3(a0)
	addi	a3, a0, 8
	mv	a1, sp
	li	a2, 16
	mv	s0, a0
	mv	a0, a3
	call	memcpy
	srli	a6, s1, 56
	srli	t0, s1, 48
	srli	a2, s1, 40
	srli	a3, s1, 32
	srli	a7, s1, 24
	srli	t2, s1, 16
	srli	a0, s1, 8
	srli	t1, s2, 56
	srli	a1, s2, 48
	srli	a4, s2, 40
	srli	a5, s2, 32
	sb	a3, 28(s0)
	sb	a2, 29(s0)
	sb	t0, 30(s0)
	sb	a6, 31(s0)
	srli	a2, s2, 24
	sb	s1, 24(s0)
	sb	a0, 25(s0)
	sb	t2, 26(s0)
	sb	a7, 27(s0)
	srli	a0, s2, 16
	sb	a5, 36(s0)
	sb	a4, 37(s0)
	sb	a1, 38(s0)
	sb	t1, 39(s0)
	srli	a1, s2, 8
	sb	s2, 32(s0)
	sb	a1, 33(s0)
	sb	a0, 34(s0)
	sb	a2, 35(s0)
	ld	ra, 56(sp)
	ld	s0, 48(sp)
	ld	s1, 40(sp)
	ld	s2, 32(sp)
	.cfi_restore ra
	.cfi_restore s0
	.cfi_restore s1
	.cfi_restore s2
	addi	sp, sp, 64
	.cfi_def_cfa_offset 0
	ret
.Lnoise_BB16_49:
	.cfi_restore_state
	li	a2, 40
	li	a1, 0
	ld	ra, 56(sp)
	ld	s0, 48(sp)
	ld	s1, 40(sp)
	ld	s2, 32(sp)
	.cfi_restore ra
	.cfi_restore s0
	.cfi_restore s1
	.cfi_restore s2
	addi	sp, sp, 64
	.cfi_def_cfa_offset 0
	tail	memset
.Lnoise_func_end16:
	.size	noise_noise_names_text_read_read_line, .Lnoise_func_end16-noise_noise_names_text_read_read_line
	.cfi_endproc

	.section	".text.noise_names::pattern::Pattern::with_psks","ax",@progbits
	.p2align	1
	.type	noise_noise_names_pattern_Pattern_with_psks,@function
noise_noise_names_pattern_Pattern_with_psks:
	.cfi_startproc
	addi	sp, sp, -960
	.cfi_def_cfa_offset 960
	sd	ra, 952(sp)
	sd	s0, 944(sp)
	sd	s1, 936(sp)
	sd	s2, 928(sp)
	sd	s3, 920(sp)
	sd	s4, 912(sp)
	sd	s5, 904(sp)
	sd	s6, 896(sp)
	sd	s7, 888(sp)
	sd	s8, 880(sp)
	sd	s9, 872(sp)
	sd	s10, 864(sp)
	sd	s11, 856(sp)
	.cfi_offset ra, -8
	.cfi_offset s0, -16
	.cfi_offset s1, -24
	.cfi_offset s2, -32
	.cfi_offset s3, -40
	.cfi_offset s4, -48
	.cfi_offset s5, -56
	.cfi_offset s6, -64
	.cfi_offset s7, -72
	.cfi_offset s8, -80
	.cfi_offset s9, -88
	.cfi_offset s10, -96
	.cfi_offset s11, -104
	.cfi_remember_state
	mv	s4, a2
	mv	s3, a1
	mv	s1, a0
	sd	zero, 288(sp)
	sd	zero, 296(sp)
	sd	zero, 304(sp)
	addi	a0, sp, 16
	li	a2, 272
	li	a1, 0
	call	memset
	ld	s5, 16(s4)
	ld	s0, 264(s3)
	mv	a2, s4
	mv	a0, s5
.Lnoise_BB17_1:
	beqz	a0, .Lnoise_BB17_4
	lbu	a1, 0(a2)
	addi	a2, a2, 1
	addi	a0, a0, -1
	bgeu	s0, a1, .Lnoise_BB17_1
	li	a3, 1
	addi	a0, s1, 8
	li	a2, 272
	sb	a3, 0(s1)
	sb	a1, 1(s1)
	li	a1, 0
	ld	ra, 952(sp)
	ld	s0, 944(sp)
	ld	s1, 936(sp)
	ld	s2, 928(sp)
	ld	s3, 920(sp)
	ld	s4, 912(sp)
	ld	s5, 904(sp)
	ld	s6, 896(sp)
	ld	s7, 888(sp)
	ld	s8, 880(sp)
	ld	s9, 872(sp)
	ld	s10, 864(sp)
	ld	s11, 856(sp)
	.cfi_restore ra
	.cfi_restore s0
	.cfi_restore s1
	.cfi_restore s2
	.cfi_restore s3
	.cfi_restore s4
	.cfi_restore s5
	.cfi_restore s6
	.cfi_restore s7
	.cfi_restore s8
	.cfi_restore s9
	.cfi_restore s10
	.cfi_restore s11
	addi	sp, sp, 960
	.cfi_def_cfa_offset 0
	tail	memset
.Lnoise_BB17_4:
	.cfi_restore_state
	.cfi_remember_state
	sd	s1, 8(sp)
	addi	a0, sp, 584
	li	a2, 200
	addi	s1, sp, 584
	li	a1, 0
	call	memset
	beqz	s0, .Lnoise_BB17_13
	neg	s8, s0
	addi	s11, s3, 88
	li	s10, 1
	li	s0, 1
	li	s2, 1
	j	.Lnoise_BB17_7
.Lnoise_BB17_6:
	ld	a0, 536(sp)
	ld	a1, 544(sp)
	ld	a2, 552(sp)
	addi	s2, s2, 1
	sd	a0, 512(sp)
	sd	a1, 520(sp)
	sd	a2, 528(sp)
	sd	a0, 0(s1)
	sd	a1, 8(s1)
	sd	a2, 16(s1)
	sd	s0, 776(sp)
	addi	s1, s1, 24
	addi	s0, s0, 1
	add	a0, s8, s0
	li	a1, 1
	addi	s11, s11, 24
	beq	a0, a1, .Lnoise_BB17_13
.Lnoise_BB17_7:
	ld	s9, 0(s11)
	sb	s2, 568(sp)
	zext.b	a0, s2
	sd	zero, 536(sp)
	sd	zero, 544(sp)
	addi	s7, sp, 536
	bne	a0, s10, .Lnoise_BB17_10
.Lnoise_pcrel_hi5:
	auipc	a2, %pcrel_hi(.Lnoise_static.2)
	addi	a2, a2, %pcrel_lo(.Lnoise_pcrel_hi5)
	mv	a0, s4
	mv	a1, s5
	call	noise_core_slice_reads_slice_T_contains_i8_31_core_cmp_numbers_U8PartialEq
	beqz	a0, .Lnoise_BB17_10
	li	a0, 6
	sb	a0, 536(sp)
	li	s6, 1
	addi	s7, sp, 537
	li	a0, 10
	sub	a0, a0, s6
	bgeu	a0, s9, .Lnoise_BB17_11
	j	.Lnoise_BB17_20
.Lnoise_BB17_10:
	li	s6, 0
	li	a0, 10
	mv	a0, a0
	bltu	a0, s9, .Lnoise_BB17_20
.Lnoise_BB17_11:
	addi	a1, s11, -16
	mv	a0, s7
	mv	a2, s9
	call	memcpy
	add	s6, s6, s9
	sd	s6, 552(sp)
	addi	a2, sp, 568
	mv	a0, s4
	mv	a1, s5
	call	noise_core_slice_reads_slice_T_contains_i8_31_core_cmp_numbers_U8PartialEq
	beqz	a0, .Lnoise_BB17_6
	addi	a0, sp, 536
	li	a1, 6
	add	a0, a0, s6
	addi	s6, s6, 1
	sb	a1, 0(a0)
	sd	s6, 552(sp)
	j	.Lnoise_BB17_6
.Lnoise_BB17_13:
	addi	a0, sp, 312
	addi	a1, sp, 584
	li	a2, 200
	call	memcpy
	sd	zero, 536(sp)
	sd	zero, 544(sp)
	sd	zero, 552(sp)
	beqz	s5, .Lnoise_BB17_16
	li	a0, 0
.Lnoise_BB17_15:
	add	a1, s4, a0
	lbu	a1, 0(a1)
	addi	a2, sp, 536
	add	a2, a2, a0
	addi	a0, a0, 1
	sb	a1, 0(a2)
	sd	a0, 552(sp)
	bne	s5, a0, .Lnoise_BB17_15
.Lnoise_BB17_16:
	addi	s0, sp, 591
	addi	a1, sp, 536
	li	a2, 24
	mv	a0, s0
	call	memcpy
	addi	s1, sp, 543
	li	a2, 24
	mv	a0, s1
	mv	a1, s0
	call	memcpy
	addi	a0, sp, 591
	li	a2, 24
	mv	a1, s1
	call	memcpy
	lbu	t0, 591(sp)
	lbu	a1, 592(sp)
	lbu	a2, 593(sp)
	lbu	a3, 594(sp)
	lbu	a6, 595(sp)
	lbu	a7, 596(sp)
	lbu	t1, 597(sp)
	lbu	t2, 598(sp)
	lbu	a4, 599(sp)
	lbu	a5, 600(sp)
	lbu	a0, 601(sp)
	lbu	s1, 602(sp)
	slli	s0, a1, 8
	slli	a2, a2, 16
	slli	a1, a3, 24
	or	t0, s0, t0
	or	t3, a1, a2
	lbu	a2, 603(sp)
	lbu	s0, 604(sp)
	lbu	a3, 605(sp)
	lbu	a1, 606(sp)
	slli	a7, a7, 8
	slli	t1, t1, 16
	slli	t2, t2, 24
	slli	a5, a5, 8
	slli	a0, a0, 16
	slli	s1, s1, 24
	or	a6, a7, a6
	or	a7, t2, t1
	or	t1, a5, a4
	or	t2, s1, a0
	lbu	a5, 607(sp)
	lbu	s1, 608(sp)
	lbu	a4, 609(sp)
	lbu	a0, 610(sp)
	slli	s0, s0, 8
	slli	a3, a3, 16
	slli	a1, a1, 24
	slli	s1, s1, 8
	slli	a4, a4, 16
	slli	a0, a0, 24
	or	t4, s0, a2
	or	a1, a1, a3
	or	a5, a5, s1
	or	a0, a0, a4
	lbu	a3, 612(sp)
	lbu	a4, 611(sp)
	lbu	s1, 613(sp)
	lbu	s0, 614(sp)
	slli	a3, a3, 8
	or	a3, a3, a4
	slli	s1, s1, 16
	slli	s0, s0, 24
	or	s0, s0, s1
	or	a4, t3, t0
	or	s1, a7, a6
	or	a2, t2, t1
	or	a1, a1, t4
	or	a0, a0, a5
	or	a3, a3, s0
	slli	s1, s1, 32
	slli	a1, a1, 32
	slli	a3, a3, 32
	or	a4, a4, s1
	or	a1, a1, a2
	or	a0, a0, a3
	ld	s0, 8(s3)
	ld	s1, 48(s3)
	ld	s4, 64(s3)
	sd	a4, 288(sp)
	sd	a1, 296(sp)
	sd	a0, 304(sp)
	li	a0, 8
	sd	zero, 536(sp)
	bltu	a0, s0, .Lnoise_BB17_20
	addi	a0, sp, 536
	mv	a1, s3
	mv	a2, s0
	call	memcpy
	sd	s0, 544(sp)
	li	s0, 2
	sd	zero, 512(sp)
	bltu	s0, s1, .Lnoise_BB17_20
	addi	a1, s3, 40
	addi	a0, sp, 512
	mv	a2, s1
	call	memcpy
	sd	s1, 520(sp)
	sd	zero, 568(sp)
	bltu	s0, s4, .Lnoise_BB17_20
	addi	a1, s3, 56
	addi	a0, sp, 568
	mv	a2, s4
	call	memcpy
	sd	s4, 576(sp)
	ld	a0, 536(sp)
	ld	a1, 544(sp)
	ld	a2, 288(sp)
	ld	a3, 296(sp)
	ld	a4, 304(sp)
	sd	s4, 648(sp)
	ld	a5, 512(sp)
	ld	s1, 520(sp)
	sd	a0, 584(sp)
	sd	a1, 592(sp)
	sd	a2, 600(sp)
	sd	a3, 608(sp)
	ld	a0, 568(sp)
	sd	a4, 616(sp)
	sd	a5, 624(sp)
	sd	s1, 632(sp)
	sd	a0, 640(sp)
	addi	a0, sp, 656
	addi	a1, sp, 312
	li	a2, 200
	call	memcpy
	addi	a0, sp, 16
	addi	a1, sp, 584
	li	a2, 272
	call	memcpy
	ld	a0, 8(sp)
	sb	zero, 0(a0)
	sb	zero, 1(a0)
	addi	a0, a0, 8
	addi	a1, sp, 16
	li	a2, 272
	call	memcpy
	ld	ra, 952(sp)
	ld	s0, 944(sp)
	ld	s1, 936(sp)
	ld	s2, 928(sp)
	ld	s3, 920(sp)
	ld	s4, 912(sp)
	ld	s5, 904(sp)
	ld	s6, 896(sp)
	ld	s7, 888(sp)
	ld	s8, 880(sp)
	ld	s9, 872(sp)
	ld	s10, 864(sp)
	ld	s11, 856(sp)
	.cfi_restore ra
	.cfi_restore s0
	.cfi_restore s1
	.cfi_restore s2
	.cfi_restore s3
	.cfi_restore s4
	.cfi_restore s5
	.cfi_restore s6
	.cfi_restore s7
	.cfi_restore s8
	.cfi_restore s9
	.cfi_restore s10
	.cfi_restore s11
	addi	sp, sp, 960
	.cfi_def_cfa_offset 0
	ret
.Lnoise_BB17_20:
	.cfi_restore_state
	unimp
.Lnoise_func_end17:
	.size	noise_noise_names_pattern_Pattern_with_psks, .Lnoise_func_end17-noise_noise_names_pattern_Pattern_with_psks
	.cfi_endproc

	.section	".text.core::slice::reads::slice+T::contains::<i8,31'core::cmp::numbers::U8PartialEq{}>","ax",@progbits
	.p2align	1
	.type	noise_core_slice_reads_slice_T_contains_i8_31_core_cmp_numbers_U8PartialEq,@function
noise_core_slice_reads_slice_T_contains_i8_31_core_cmp_numbers_U8PartialEq:
	.cfi_startproc
	li	a3, 3
	bltu	a3, a1, .Lnoise_BB18_3
	beqz	a1, .Lnoise_BB18_11
	lbu	a2, 0(a2)
	lbu	a3, 0(a0)
	srli	a4, a1, 1
	add	a1, a1, a0
	add	a0, a0, a4
	lbu	a0, 0(a0)
	lbu	a1, -1(a1)
	xor	a3, a3, a2
	seqz	a3, a3
	xor	a0, a0, a2
	xor	a1, a1, a2
	seqz	a0, a0
	seqz	a1, a1
	or	a1, a1, a3
	or	a0, a0, a1
	andi	a0, a0, 1
	ret
.Lnoise_BB18_3:
	addi	sp, sp, -576
	.cfi_def_cfa_offset 576
	sd	ra, 568(sp)
	sd	s0, 560(sp)
	sd	s1, 552(sp)
	sd	s2, 544(sp)
	sd	s3, 536(sp)
	sd	s4, 528(sp)
	sd	s5, 520(sp)
	sd	s6, 512(sp)
	sd	s7, 504(sp)
	sd	s8, 496(sp)
	sd	s9, 488(sp)
	sd	s10, 480(sp)
	sd	s11, 472(sp)
	.cfi_offset ra, -8
	.cfi_offset s0, -16
	.cfi_offset s1, -24
	.cfi_offset s2, -32
	.cfi_offset s3, -40
	.cfi_offset s4, -48
	.cfi_offset s5, -56
	.cfi_offset s6, -64
	.cfi_offset s7, -72
	.cfi_offset s8, -80
	.cfi_offset s9, -88
	.cfi_offset s10, -96
	.cfi_offset s11, -104
	.cfi_remember_state
	li	a3, 8
	bltu	a3, a1, .Lnoise_BB18_5
	lbu	a2, 0(a2)
	lbu	a3, 0(a0)
	lbu	a4, 1(a0)
	lbu	a5, 2(a0)
	lbu	a6, 3(a0)
	add	a0, a0, a1
	lbu	a7, -4(a0)
	lbu	t0, -3(a0)
	lbu	t1, -2(a0)
	lbu	t2, -1(a0)
	xor	a3, a3, a2
	xor	a4, a4, a2
	xor	a5, a5, a2
	xor	a1, a6, a2
	xor	s0, a7, a2
	xor	s1, t0, a2
	xor	a0, t1, a2
	xor	a2, t2, a2
	seqz	a3, a3
	seqz	a4, a4
	seqz	a5, a5
	seqz	a1, a1
	seqz	s0, s0
	seqz	s1, s1
	seqz	a0, a0
	seqz	a2, a2
	or	a3, a3, a4
	or	a1, a1, a5
	or	s0, s0, s1
	or	a0, a0, a2
	or	a0, a0, s0
	or	a1, a1, a3
	or	a0, a0, a1
	j	.Lnoise_BB18_58
.Lnoise_BB18_5:
	li	a3, 32
	bltu	a3, a1, .Lnoise_BB18_12
	addi	a4, a1, -8
	li	a1, 8
	mv	a3, a4
	bltu	a4, a1, .Lnoise_BB18_8
	li	a3, 8
.Lnoise_BB18_8:
	lbu	a1, 0(a2)
	lbu	t5, 0(a0)
	lbu	t4, 1(a0)
	lbu	t3, 2(a0)
	lbu	t2, 3(a0)
	lbu	t1, 4(a0)
	lbu	t0, 5(a0)
	lbu	a7, 6(a0)
	lbu	a6, 7(a0)
	add	a2, a0, a3
	lbu	a3, 0(a2)
	lbu	s0, 1(a2)
	lbu	s1, 2(a2)
	lbu	s5, 3(a2)
	lbu	s4, 4(a2)
	lbu	s3, 5(a2)
	lbu	s2, 6(a2)
	lbu	t6, 7(a2)
	li	a5, 16
	mv	a2, a4
	bltu	a4, a5, .Lnoise_BB18_10
	li	a2, 16
.Lnoise_BB18_10:
	add	a2, a2, a0
	add	s11, a0, a4
	xor	s6, a3, a1
	xor	s7, s0, a1
	xor	s8, s1, a1
	xor	s5, s5, a1
	xor	s4, s4, a1
	xor	s3, s3, a1
	xor	s2, s2, a1
	xor	t6, t6, a1
	xor	t5, t5, a1
	xor	t4, t4, a1
	xor	t3, t3, a1
	xor	s9, t2, a1
	xor	t1, t1, a1
	xor	t0, t0, a1
	xor	a7, a7, a1
	xor	a6, a6, a1
	seqz	a3, s6
	seqz	a4, s7
	seqz	s0, s8
	seqz	a5, s5
	or	s8, a3, a4
	or	s10, s0, a5
	lbu	s6, 0(a2)
	lbu	s7, 1(a2)
	lbu	t2, 2(a2)
	lbu	s5, 3(a2)
	seqz	a4, s4
	seqz	s0, s3
	seqz	s1, t5
	seqz	a3, t4
	seqz	a5, t3
	seqz	a0, s9
	or	a4, a4, s0
	or	a3, a3, s1
	or	a0, a0, a5
	lbu	t4, 4(a2)
	lbu	s3, 5(a2)
	lbu	t5, 6(a2)
	lbu	t3, 7(a2)
	seqz	a2, s2
	seqz	a5, t1
	seqz	s0, t0
	or	a5, a5, s0
	or	s0, s8, s10
	or	a2, a2, a4
	or	a0, a0, a3
	lbu	t1, 0(s11)
	lbu	a4, 1(s11)
	lbu	s1, 2(s11)
	lbu	t0, 3(s11)
	seqz	a3, a7
	or	a3, a3, a5
	or	s2, s0, a2
	or	a7, a0, a3
	lbu	a3, 4(s11)
	lbu	a5, 5(s11)
	lbu	s0, 6(s11)
	lbu	a0, 7(s11)
	xor	a2, t1, a1
	xor	a4, a4, a1
	xor	s1, s1, a1
	xor	t0, t0, a1
	xor	a3, a3, a1
	xor	a5, a5, a1
	xor	s4, s0, a1
	xor	t1, a0, a1
	xor	a0, s6, a1
	xor	s0, s7, a1
	xor	t2, t2, a1
	xor	s5, s5, a1
	xor	t4, t4, a1
	xor	s3, s3, a1
	xor	t5, t5, a1
	xor	t3, t3, a1
	seqz	a1, t6
	or	t6, s2, a1
	seqz	a1, a6
	or	a1, a7, a1
	seqz	a2, a2
	seqz	a4, a4
	or	a2, a2, a4
	seqz	a4, s1
	seqz	s1, t0
	or	a4, a4, s1
	seqz	a3, a3
	seqz	a5, a5
	or	a3, a3, a5
	seqz	a0, a0
	seqz	a5, s0
	or	a0, a0, a5
	seqz	a5, t2
	seqz	s1, s5
	or	a5, a5, s1
	seqz	s1, t4
	seqz	s0, s3
	or	s0, s0, s1
	or	a2, a2, a4
	seqz	a4, s4
	or	a3, a3, a4
	or	a0, a0, a5
	seqz	a4, t5
	or	a4, a4, s0
	or	a2, a2, a3
	or	a0, a0, a4
	seqz	a3, t1
	or	a2, a2, a3
	seqz	a3, t3
	or	a0, a0, a3
	or	a1, a1, t6
	or	a0, a0, a2
	or	a0, a0, a1
	j	.Lnoise_BB18_58
.Lnoise_BB18_11:
	li	a0, 0
	ret
.Lnoise_BB18_12:
	.cfi_restore_state
	lbu	ra, 0(a2)
	li	a3, 64
	bltu	a3, a1, .Lnoise_BB18_14
	lbu	s1, 0(a0)
	lbu	s0, 1(a0)
	lbu	a2, 2(a0)
	lbu	a5, 3(a0)
	lbu	a6, 4(a0)
	lbu	a7, 5(a0)
	lbu	t0, 6(a0)
	lbu	t1, 7(a0)
	lbu	t2, 8(a0)
	lbu	a3, 9(a0)
	sd	a3, 304(sp)
	lbu	a3, 10(a0)
	sd	a3, 336(sp)
	lbu	a3, 11(a0)
	sd	a3, 344(sp)
	lbu	a3, 12(a0)
	sd	a3, 352(sp)
	lbu	a3, 13(a0)
	sd	a3, 376(sp)
	lbu	a3, 14(a0)
	sd	a3, 384(sp)
	lbu	a3, 15(a0)
	sd	a3, 392(sp)
	lbu	a3, 16(a0)
	sd	a3, 416(sp)
	lbu	a3, 17(a0)
	sd	a3, 424(sp)
	lbu	a3, 18(a0)
	sd	a3, 432(sp)
	lbu	a3, 19(a0)
	sd	a3, 456(sp)
	lbu	a3, 20(a0)
	lbu	s10, 21(a0)
	lbu	s7, 22(a0)
	lbu	s4, 23(a0)
	add	a4, a0, a1
	lbu	a1, 24(a0)
	sd	a1, 464(sp)
	lbu	a1, 25(a0)
	sd	a1, 312(sp)
	lbu	s9, 26(a0)
	lbu	s6, 27(a0)
	lbu	s5, 28(a0)
	lbu	s2, 29(a0)
	lbu	a1, 30(a0)
	sd	a1, 320(sp)
	lbu	a0, 31(a0)
	sd	a0, 440(sp)
	lbu	a0, -32(a4)
	sd	a0, 400(sp)
	lbu	a0, -31(a4)
	sd	a0, 360(sp)
	lbu	s3, -30(a4)
	lbu	s8, -29(a4)
	lbu	s11, -28(a4)
	lbu	a0, -27(a4)
	lbu	t3, -26(a4)
	sd	t3, 448(sp)
	lbu	t3, -25(a4)
	lbu	t4, -24(a4)
	sd	t4, 408(sp)
	lbu	t4, -23(a4)
	lbu	t5, -22(a4)
	sd	t5, 368(sp)
	lbu	t5, -21(a4)
	lbu	t6, -20(a4)
	sd	t6, 328(sp)
	lbu	t6, -19(a4)
	lbu	a1, -18(a4)
	sd	a1, 296(sp)
	lbu	a1, -17(a4)
	sd	a1, 288(sp)
	lbu	a1, -16(a4)
	sd	a1, 280(sp)
	lbu	a1, -15(a4)
	sd	a1, 272(sp)
	lbu	a1, -14(a4)
	sd	a1, 264(sp)
	lbu	a1, -13(a4)
	sd	a1, 256(sp)
	lbu	a1, -12(a4)
	sd	a1, 248(sp)
	lbu	a1, -11(a4)
	sd	a1, 240(sp)
	lbu	a1, -10(a4)
	sd	a1, 224(sp)
	lbu	a1, -9(a4)
	sd	a1, 216(sp)
	lbu	a1, -8(a4)
	sd	a1, 208(sp)
	lbu	a1, -7(a4)
	sd	a1, 200(sp)
	lbu	a1, -6(a4)
	sd	a1, 192(sp)
	lbu	a1, -5(a4)
	sd	a1, 184(sp)
	lbu	a1, -4(a4)
	sd	a1, 176(sp)
	lbu	a1, -3(a4)
	sd	a1, 168(sp)
	lbu	a1, -2(a4)
	sd	a1, 160(sp)
	lbu	a1, -1(a4)
	sd	a1, 152(sp)
	xor	a1, s1, ra
	sd	a1, 136(sp)
	xor	a1, s0, ra
	sd	a1, 128(sp)
	xor	a1, a2, ra
	sd	a1, 120(sp)
	xor	a1, a5, ra
	sd	a1, 112(sp)
	xor	a1, a6, ra
	sd	a1, 104(sp)
	xor	a1, a7, ra
	sd	a1, 96(sp)
	xor	a1, t0, ra
	sd	a1, 232(sp)
	xor	t0, t1, ra
	xor	t1, t2, ra
	ld	a1, 304(sp)
	xor	a1, a1, ra
	sd	a1, 304(sp)
	ld	a2, 336(sp)
	xor	a1, a2, ra
	sd	a1, 336(sp)
	ld	a2, 344(sp)
	xor	a1, a2, ra
	sd	a1, 80(sp)
	ld	a2, 352(sp)
	xor	a1, a2, ra
	sd	a1, 72(sp)
	ld	a2, 376(sp)
	xor	a1, a2, ra
	sd	a1, 352(sp)
	ld	a2, 384(sp)
	xor	a1, a2, ra
	sd	a1, 384(sp)
	ld	a2, 392(sp)
	xor	a1, a2, ra
	sd	a1, 392(sp)
	ld	a2, 416(sp)
	xor	a1, a2, ra
	sd	a1, 64(sp)
	ld	a2, 424(sp)
	xor	a1, a2, ra
	sd	a1, 48(sp)
	ld	a2, 432(sp)
	xor	a1, a2, ra
	sd	a1, 144(sp)
	ld	a2, 456(sp)
	xor	a1, a2, ra
	sd	a1, 416(sp)
	xor	a1, a3, ra
	sd	a1, 432(sp)
	xor	a1, s10, ra
	sd	a1, 456(sp)
	xor	a6, s7, ra
	xor	a7, s4, ra
	ld	a2, 464(sp)
	xor	a1, a2, ra
	sd	a1, 88(sp)
	ld	a1, 312(sp)
	xor	a1, a1, ra
	sd	a1, 344(sp)
	xor	a1, s9, ra
	sd	a1, 376(sp)
	xor	a1, s6, ra
	sd	a1, 424(sp)
	xor	a1, s5, ra
	sd	a1, 464(sp)
	xor	s1, s2, ra
	ld	a1, 320(sp)
	xor	a3, a1, ra
	ld	a1, 440(sp)
	xor	a1, a1, ra
	sd	a1, 56(sp)
	ld	a1, 400(sp)
	xor	a1, a1, ra
	ld	a2, 360(sp)
	xor	a5, a2, ra
	xor	a2, s3, ra
	xor	t2, s8, ra
	xor	s4, s11, ra
	xor	a4, a0, ra
	ld	a0, 448(sp)
	xor	a0, a0, ra
	sd	a0, 40(sp)
	xor	a0, t3, ra
	sd	a0, 16(sp)
	ld	a0, 408(sp)
	xor	a0, a0, ra
	sd	a0, 8(sp)
	xor	a0, t4, ra
	sd	a0, 32(sp)
	ld	a0, 368(sp)
	xor	a0, a0, ra
	sd	a0, 320(sp)
	xor	a0, t5, ra
	sd	a0, 0(sp)
	ld	a0, 328(sp)
	xor	t4, a0, ra
	xor	a0, t6, ra
	sd	a0, 24(sp)
	ld	a0, 296(sp)
	xor	a0, a0, ra
	sd	a0, 328(sp)
	ld	a0, 288(sp)
	xor	a0, a0, ra
	sd	a0, 400(sp)
	ld	a0, 280(sp)
	xor	t3, a0, ra
	ld	a0, 272(sp)
	xor	s3, a0, ra
	ld	a0, 264(sp)
	xor	a0, a0, ra
	sd	a0, 288(sp)
	ld	a0, 256(sp)
	xor	a0, a0, ra
	sd	a0, 312(sp)
	ld	a0, 248(sp)
	xor	a0, a0, ra
	sd	a0, 368(sp)
	ld	a0, 240(sp)
	xor	a0, a0, ra
	sd	a0, 440(sp)
	ld	a0, 224(sp)
	xor	s2, a0, ra
	ld	a0, 216(sp)
	xor	s5, a0, ra
	ld	a0, 208(sp)
	xor	a0, a0, ra
	sd	a0, 280(sp)
	ld	a0, 200(sp)
	xor	a0, a0, ra
	sd	a0, 296(sp)
	ld	a0, 192(sp)
	xor	a0, a0, ra
	sd	a0, 360(sp)
	ld	a0, 184(sp)
	xor	a0, a0, ra
	sd	a0, 408(sp)
	ld	a0, 176(sp)
	xor	a0, a0, ra
	sd	a0, 448(sp)
	ld	a0, 168(sp)
	xor	t6, a0, ra
	ld	a0, 160(sp)
	xor	t5, a0, ra
	ld	a0, 152(sp)
	xor	ra, a0, ra
	ld	a0, 136(sp)
	seqz	a0, a0
	ld	s0, 128(sp)
	seqz	s11, s0
	or	s11, a0, s11
	ld	a0, 120(sp)
	seqz	a0, a0
	ld	s0, 112(sp)
	seqz	s10, s0
	or	s10, a0, s10
	ld	a0, 104(sp)
	seqz	a0, a0
	ld	s0, 96(sp)
	seqz	s9, s0
	or	s9, a0, s9
	seqz	a0, t0
	seqz	s8, t1
	or	s8, a0, s8
	ld	a0, 80(sp)
	seqz	a0, a0
	ld	s0, 72(sp)
	seqz	s7, s0
	or	s7, a0, s7
	ld	a0, 64(sp)
	seqz	a0, a0
	ld	s0, 48(sp)
	seqz	s6, s0
	or	s6, a0, s6
	seqz	a0, a6
	seqz	s0, a7
	or	t1, a0, s0
	seqz	s0, s1
	seqz	s1, a3
	or	t0, s0, s1
	seqz	s1, a1
	seqz	a5, a5
	or	a7, s1, a5
	seqz	s1, a2
	seqz	a3, t2
	or	t2, s1, a3
	seqz	s1, s4
	seqz	a4, a4
	or	s4, s1, a4
	ld	a0, 16(sp)
	seqz	s1, a0
	ld	a0, 8(sp)
	seqz	a1, a0
	or	a6, s1, a1
	ld	a0, 0(sp)
	seqz	s1, a0
	seqz	a2, t4
	or	t4, s1, a2
	seqz	s1, t3
	seqz	a0, s3
	or	t3, s1, a0
	seqz	a0, s2
	seqz	s0, s5
	or	s2, a0, s0
	seqz	a0, t6
	seqz	a5, t5
	or	t6, a0, a5
	or	t5, s11, s10
	ld	a0, 232(sp)
	seqz	a3, a0
	or	s9, s9, a3
	ld	a0, 304(sp)
	seqz	a4, a0
	or	s8, s8, a4
	ld	a0, 352(sp)
	seqz	a1, a0
	or	s3, s7, a1
	ld	a0, 144(sp)
	seqz	a2, a0
	or	s5, s6, a2
	ld	a0, 88(sp)
	seqz	s1, a0
	or	t1, t1, s1
	ld	a0, 56(sp)
	seqz	s0, a0
	or	t0, t0, s0
	or	a7, a7, t2
	ld	a0, 40(sp)
	seqz	a0, a0
	or	t2, s4, a0
	ld	a0, 32(sp)
	seqz	a5, a0
	or	a5, a6, a5
	ld	a0, 24(sp)
	seqz	a1, a0
	or	t4, t4, a1
	ld	a0, 288(sp)
	seqz	a2, a0
	or	t3, t3, a2
	ld	a0, 280(sp)
	seqz	a3, a0
	or	s2, s2, a3
	seqz	a4, ra
	or	a6, t6, a4
	or	t5, t5, s9
	ld	a0, 336(sp)
	seqz	s1, a0
	or	s1, s8, s1
	ld	a0, 384(sp)
	seqz	s0, a0
	or	s0, s3, s0
	ld	a0, 416(sp)
	seqz	a0, a0
	or	t6, s5, a0
	ld	a0, 344(sp)
	seqz	a1, a0
	or	t1, t1, a1
	or	a7, a7, t2
	ld	a0, 320(sp)
	seqz	a3, a0
	or	a3, a3, a5
	ld	a0, 328(sp)
	seqz	a5, a0
	or	a5, t4, a5
	ld	a0, 312(sp)
	seqz	a4, a0
	or	a4, t3, a4
	ld	a0, 296(sp)
	seqz	a0, a0
	or	t2, s2, a0
	or	s1, t5, s1
	ld	a0, 392(sp)
	seqz	a1, a0
	or	a1, a1, s0
	ld	a0, 432(sp)
	seqz	s0, a0
	or	s0, t6, s0
	ld	a0, 376(sp)
	seqz	a2, a0
	or	a2, t1, a2
	or	a3, a7, a3
	ld	a0, 400(sp)
	seqz	a0, a0
	or	a0, a0, a5
	ld	a5, 368(sp)
	seqz	a5, a5
	or	a4, a4, a5
	ld	a5, 360(sp)
	seqz	a5, a5
	or	a5, t2, a5
	or	a1, a1, s1
	ld	s1, 456(sp)
	seqz	s1, s1
	or	s0, s0, s1
	ld	s1, 424(sp)
	seqz	s1, s1
	or	a2, a2, s1
	or	a0, a0, a3
	ld	a3, 440(sp)
	seqz	a3, a3
	or	a3, a3, a4
	ld	a4, 408(sp)
	seqz	a4, a4
	or	a4, a4, a5
	or	a1, a1, s0
	ld	a5, 464(sp)
	seqz	a5, a5
	or	a2, a2, a5
	or	a0, a0, a3
	ld	a3, 448(sp)
	seqz	a3, a3
	or	a3, a3, a4
	or	a1, a1, a2
	or	a0, a0, a3
	or	a0, a0, a6
	or	a1, a1, t0
	or	a0, a0, a1
	j	.Lnoise_BB18_58
.Lnoise_BB18_14:
	li	a7, 0
	andi	a6, a1, -64
	mv	a3, a0
.Lnoise_BB18_15:
	li	s0, 0
	add	a4, a7, a0
	addi	a4, a4, 64
	mv	s1, a3
.Lnoise_BB18_16:
	lbu	a5, 0(s1)
	addi	s1, s1, 1
	xor	a5, a5, ra
	seqz	a5, a5
	or	s0, s0, a5
	bne	s1, a4, .Lnoise_BB18_16
	andi	s0, s0, 1
	bnez	s0, .Lnoise_BB18_20
	addi	a7, a7, 64
	sub	a4, a1, a7
	li	a5, 63
	addi	a3, a3, 64
	bltu	a5, a4, .Lnoise_BB18_15
	mv	a7, a6
.Lnoise_BB18_20:
	sub	a4, a1, a7
	li	a3, 32
	bltu	a4, a3, .Lnoise_BB18_57
	add	a5, a7, a0
	addi	a5, a5, 15
.Lnoise_BB18_22:
	lbu	a3, -15(a5)
	beq	a3, ra, .Lnoise_BB18_55
	lbu	a3, -14(a5)
	beq	a3, ra, .Lnoise_BB18_55
	lbu	a3, -13(a5)
	beq	a3, ra, .Lnoise_BB18_55
	lbu	a3, -12(a5)
	beq	a3, ra, .Lnoise_BB18_55
	lbu	a3, -11(a5)
	beq	a3, ra, .Lnoise_BB18_55
	lbu	a3, -10(a5)
	beq	a3, ra, .Lnoise_BB18_55
	lbu	a3, -9(a5)
	beq	a3, ra, .Lnoise_BB18_55
	lbu	a3, -8(a5)
	beq	a3, ra, .Lnoise_BB18_55
	lbu	a3, -7(a5)
	beq	a3, ra, .Lnoise_BB18_55
	lbu	a3, -6(a5)
	beq	a3, ra, .Lnoise_BB18_55
	lbu	a3, -5(a5)
	beq	a3, ra, .Lnoise_BB18_55
	lbu	a3, -4(a5)
	beq	a3, ra, .Lnoise_BB18_55
	lbu	a3, -3(a5)
	beq	a3, ra, .Lnoise_BB18_55
	lbu	a3, -2(a5)
	beq	a3, ra, .Lnoise_BB18_55
	lbu	a3, -1(a5)
	beq	a3, ra, .Lnoise_BB18_55
	lbu	a3, 0(a5)
	beq	a3, ra, .Lnoise_BB18_55
	lbu	a3, 1(a5)
	beq	a3, ra, .Lnoise_BB18_55
	lbu	a3, 2(a5)
	beq	a3, ra, .Lnoise_BB18_55
	lbu	a3, 3(a5)
	beq	a3, ra, .Lnoise_BB18_55
	lbu	a3, 4(a5)
	beq	a3, ra, .Lnoise_BB18_55
	lbu	a3, 5(a5)
	beq	a3, ra, .Lnoise_BB18_55
	lbu	a3, 6(a5)
	beq	a3, ra, .Lnoise_BB18_55
	lbu	a3, 7(a5)
	beq	a3, ra, .Lnoise_BB18_55
	lbu	a3, 8(a5)
	beq	a3, ra, .Lnoise_BB18_55
	lbu	a3, 9(a5)
	beq	a3, ra, .Lnoise_BB18_55
	lbu	a3, 10(a5)
	beq	a3, ra, .Lnoise_BB18_55
	lbu	a3, 11(a5)
	beq	a3, ra, .Lnoise_BB18_55
	lbu	a3, 12(a5)
	beq	a3, ra, .Lnoise_BB18_55
	lbu	a3, 13(a5)
	beq	a3, ra, .Lnoise_BB18_55
	lbu	a3, 14(a5)
	beq	a3, ra, .Lnoise_BB18_55
	lbu	a3, 15(a5)
	beq	a3, ra, .Lnoise_BB18_55
	lbu	a3, 16(a5)
	beq	a3, ra, .Lnoise_BB18_55
	addi	a4, a4, -32
	li	a3, 32
	addi	a5, a5, 32
	bgeu	a4, a3, .Lnoise_BB18_22
	j	.Lnoise_BB18_57
.Lnoise_BB18_55:
	li	a3, 31
	bgeu	a3, a4, .Lnoise_BB18_57
	li	a0, 1
	j	.Lnoise_BB18_58
.Lnoise_BB18_57:
	lbu	a2, 0(a2)
	add	a0, a0, a1
	lbu	a5, -32(a0)
	lbu	a1, -31(a0)
	lbu	a3, -30(a0)
	lbu	t1, -29(a0)
	lbu	t2, -28(a0)
	lbu	t3, -27(a0)
	lbu	t4, -26(a0)
	lbu	a4, -25(a0)
	lbu	s1, -24(a0)
	lbu	t5, -23(a0)
	lbu	t6, -22(a0)
	lbu	s6, -21(a0)
	lbu	s8, -20(a0)
	lbu	s0, -19(a0)
	sd	s0, 456(sp)
	lbu	s0, -18(a0)
	sd	s0, 464(sp)
	lbu	t0, -17(a0)
	lbu	s0, -16(a0)
	sd	s0, 448(sp)
	lbu	s0, -15(a0)
	sd	s0, 440(sp)
	lbu	s0, -14(a0)
	sd	s0, 432(sp)
	lbu	s0, -13(a0)
	sd	s0, 424(sp)
	lbu	s0, -12(a0)
	sd	s0, 416(sp)
	lbu	s0, -11(a0)
	sd	s0, 408(sp)
	lbu	s0, -10(a0)
	sd	s0, 392(sp)
	lbu	s0, -9(a0)
	sd	s0, 376(sp)
	lbu	s11, -8(a0)
	lbu	s9, -7(a0)
	lbu	s7, -6(a0)
	lbu	s5, -5(a0)
	lbu	a7, -4(a0)
	lbu	s2, -3(a0)
	lbu	a6, -2(a0)
	lbu	a0, -1(a0)
	xor	a5, a5, a2
	xor	a1, a1, a2
	xor	a3, a3, a2
	xor	t1, t1, a2
	xor	s4, t2, a2
	xor	s3, t3, a2
	xor	ra, t4, a2
	xor	a4, a4, a2
	xor	s1, s1, a2
	xor	s10, t5, a2
	xor	s0, t6, a2
	sd	s0, 400(sp)
	xor	t2, s6, a2
	xor	t3, s8, a2
	ld	s0, 456(sp)
	xor	s8, s0, a2
	ld	s0, 464(sp)
	xor	s0, s0, a2
	sd	s0, 384(sp)
	xor	s0, t0, a2
	sd	s0, 456(sp)
	ld	s0, 448(sp)
	xor	t6, s0, a2
	ld	s0, 440(sp)
	xor	t4, s0, a2
	ld	s0, 432(sp)
	xor	s6, s0, a2
	ld	s0, 424(sp)
	xor	s0, s0, a2
	sd	s0, 424(sp)
	ld	s0, 416(sp)
	xor	s0, s0, a2
	sd	s0, 448(sp)
	ld	s0, 408(sp)
	xor	s0, s0, a2
	sd	s0, 464(sp)
	ld	s0, 392(sp)
	xor	t5, s0, a2
	ld	s0, 376(sp)
	xor	t0, s0, a2
	xor	s11, s11, a2
	xor	s9, s9, a2
	xor	s7, s7, a2
	xor	s0, s5, a2
	sd	s0, 440(sp)
	xor	s5, a7, a2
	xor	s2, s2, a2
	xor	a7, a6, a2
	xor	a0, a0, a2
	sd	a0, 432(sp)
	seqz	a5, a5
	seqz	a2, a1
	or	a6, a5, a2
	seqz	a5, a3
	seqz	s0, t1
	or	a5, a5, s0
	seqz	s0, s4
	seqz	a3, s3
	or	a3, a3, s0
	seqz	s0, a4
	seqz	a4, s1
	or	a4, a4, s0
	seqz	s0, t2
	seqz	a0, t3
	or	a0, a0, s0
	seqz	s0, t6
	seqz	a1, t4
	or	a1, a1, s0
	seqz	s0, t5
	seqz	s1, t0
	or	s0, s0, s1
	seqz	s1, s2
	seqz	a2, a7
	or	a2, a2, s1
	or	a5, a6, a5
	seqz	s1, ra
	or	a3, a3, s1
	seqz	s1, s10
	or	a4, a4, s1
	seqz	s1, s8
	or	a0, a0, s1
	seqz	s1, s6
	or	a1, a1, s1
	seqz	s1, s11
	or	s0, s0, s1
	or	a3, a3, a5
	ld	a5, 400(sp)
	seqz	a5, a5
	or	a4, a4, a5
	ld	a5, 384(sp)
	seqz	a5, a5
	or	a0, a0, a5
	ld	a5, 424(sp)
	seqz	a5, a5
	or	a1, a1, a5
	seqz	a5, s9
	or	a5, a5, s0
	or	a3, a3, a4
	ld	a4, 456(sp)
	seqz	a4, a4
	or	a0, a0, a4
	ld	a4, 448(sp)
	seqz	a4, a4
	or	a1, a1, a4
	seqz	a4, s7
	or	a4, a4, a5
	or	a0, a0, a3
	ld	a3, 464(sp)
	seqz	a3, a3
	or	a1, a1, a3
	ld	a3, 440(sp)
	seqz	a3, a3
	or	a3, a3, a4
	or	a0, a0, a1
	seqz	a1, s5
	ld	a4, 432(sp)
	seqz	a4, a4
	or	a1, a1, a3
	or	a0, a0, a1
	or	a2, a2, a4
	or	a0, a0, a2
.Lnoise_BB18_58:
	ld	ra, 568(sp)
	ld	s0, 560(sp)
	ld	s1, 552(sp)
	ld	s2, 544(sp)
	ld	s3, 536(sp)
	ld	s4, 528(sp)
	ld	s5, 520(sp)
	ld	s6, 512(sp)
	ld	s7, 504(sp)
	ld	s8, 496(sp)
	ld	s9, 488(sp)
	ld	s10, 480(sp)
	ld	s11, 472(sp)
	.cfi_restore ra
	.cfi_restore s0
	.cfi_restore s1
	.cfi_restore s2
	.cfi_restore s3
	.cfi_restore s4
	.cfi_restore s5
	.cfi_restore s6
	.cfi_restore s7
	.cfi_restore s8
	.cfi_restore s9
	.cfi_restore s10
	.cfi_restore s11
	addi	sp, sp, 576
	.cfi_def_cfa_offset 0
	andi	a0, a0, 1
	ret
.Lnoise_func_end18:
	.size	noise_core_slice_reads_slice_T_contains_i8_31_core_cmp_numbers_U8PartialEq, .Lnoise_func_end18-noise_core_slice_reads_slice_T_contains_i8_31_core_cmp_numbers_U8PartialEq
	.cfi_endproc

	.section	".text.noise_names::text::write::text","ax",@progbits
	.p2align	1
	.type	noise_noise_names_text_write_text,@function
noise_noise_names_text_write_text:
	.cfi_startproc
	addi	sp, sp, -1408
	.cfi_def_cfa_offset 1408
	sd	ra, 1400(sp)
	sd	s0, 1392(sp)
	sd	s1, 1384(sp)
	sd	s2, 1376(sp)
	sd	s3, 1368(sp)
	sd	s4, 1360(sp)
	sd	s5, 1352(sp)
	.cfi_offset ra, -8
	.cfi_offset s0, -16
	.cfi_offset s1, -24
	.cfi_offset s2, -32
	.cfi_offset s3, -40
	.cfi_offset s4, -48
	.cfi_offset s5, -56
	.cfi_remember_state
	mv	s3, a1
	ld	s4, 264(a1)
	mv	s2, a0
	addi	a0, sp, 536
	li	a2, 552
	li	a1, 0
	call	memset
	ld	s0, 8(s3)
	addi	a0, sp, 1088
	li	a2, 256
	li	a1, 0
	call	memset
	li	a0, 255
	bltu	a0, s0, .Lnoise_BB19_28
	addi	a0, sp, 1088
	addi	s5, sp, 1088
	mv	a1, s3
	mv	a2, s0
	call	memcpy
	ld	a1, 32(s3)
	beqz	a1, .Lnoise_BB19_14
	li	a0, 252
	bltu	a0, s0, .Lnoise_BB19_28
	addi	a2, sp, 1088
.Lnoise_pcrel_hi6:
	auipc	a0, %pcrel_hi(.Lnoise_static.51)
	add	a2, a2, s0
	addi	a0, a0, %pcrel_lo(.Lnoise_pcrel_hi6)
	sub	a3, a2, a0
	li	a4, 3
	bgeu	a3, a4, .Lnoise_BB19_12
	li	a3, 112
	li	a4, 115
	li	a5, 107
	sb	a3, 0(a2)
	sb	a4, 1(a2)
	sb	a5, 2(a2)
	lbu	a3, 16(s3)
	addi	a3, a3, 48
	addi	a1, a1, -1
	sb	a3, 3(a2)
	beqz	a1, .Lnoise_BB19_13
.Lnoise_BB19_5:
	addi	a2, s0, -248
	addi	a3, s3, 17
	j	.Lnoise_BB19_8
.Lnoise_BB19_6:
	li	a5, 107
	li	s0, 115
	li	s1, 112
	sb	s1, 0(a4)
	sb	s0, 1(a4)
	sb	a5, 2(a4)
.Lnoise_BB19_7:
	lbu	a4, 0(a3)
	addi	a5, sp, 1088
	addi	a1, a1, -1
	add	a5, a5, a2
	addi	a2, a2, 5
	addi	a4, a4, 48
	sb	a4, 256(a5)
	addi	a3, a3, 1
	beqz	a1, .Lnoise_BB19_11
.Lnoise_BB19_8:
	addi	a4, sp, 1088
	li	a5, 43
	add	a4, a4, a2
	li	s0, 3
	sb	a5, 252(a4)
	bltu	a2, s0, .Lnoise_BB19_28
	addi	a4, a4, 253
	sub	a5, a4, a0
	li	s0, 2
	bltu	s0, a5, .Lnoise_BB19_6
	li	a5, 112
	addi	s0, sp, 1088
	sb	a5, 0(a4)
	li	a4, 115
	li	a5, 107
	add	s0, s0, a2
	sb	a4, 254(s0)
	sb	a5, 255(s0)
	j	.Lnoise_BB19_7
.Lnoise_BB19_11:
	addi	s0, a2, 252
	j	.Lnoise_BB19_14
.Lnoise_BB19_12:
	li	a3, 107
	li	a4, 115
	li	a5, 112
	sb	a5, 0(a2)
	sb	a4, 1(a2)
	sb	a3, 2(a2)
	lbu	a3, 16(s3)
	addi	a3, a3, 48
	addi	a1, a1, -1
	sb	a3, 3(a2)
	bnez	a1, .Lnoise_BB19_5
.Lnoise_BB19_13:
	addi	s0, s0, 4
.Lnoise_BB19_14:
	add	s5, s5, s0
	li	a0, 58
	li	a1, 10
	addi	s0, s0, 2
	sb	a0, 0(s5)
	sb	a1, 1(s5)
	sd	s0, 1344(sp)
	addi	a0, sp, 272
	addi	a1, sp, 1088
	li	a2, 264
	call	memcpy
	addi	a0, sp, 8
	addi	a1, sp, 272
	li	a2, 264
	call	memcpy
	ld	s0, 1080(sp)
	ld	s1, 264(sp)
	li	a0, 541
	sub	a0, a0, s0
	bltu	a0, s1, .Lnoise_BB19_28
	addi	a0, sp, 536
	add	a0, a0, s0
	addi	a1, sp, 8
	mv	a2, s1
	call	memcpy
	ld	a3, 48(s3)
	ld	s5, 64(s3)
	add	s0, s0, s1
	sd	s0, 1080(sp)
	beqz	a3, .Lnoise_BB19_17
	addi	a2, s3, 40
	addi	a0, sp, 536
	li	a1, 0
	call	noise_noise_names_text_write_push_token_line
	bnez	s5, .Lnoise_BB19_18
	j	.Lnoise_BB19_19
.Lnoise_BB19_17:
	beqz	s5, .Lnoise_BB19_24
.Lnoise_BB19_18:
	addi	a2, s3, 56
	addi	a0, sp, 536
	li	a1, 1
	mv	a3, s5
	call	noise_noise_names_text_write_push_token_line
.Lnoise_BB19_19:
	ld	a0, 1080(sp)
	addi	a1, a0, -536
	li	a2, 6
	bltu	a1, a2, .Lnoise_BB19_28
	addi	a1, sp, 536
.Lnoise_pcrel_hi7:
	auipc	a2, %pcrel_hi(.Lnoise_static.82)
	add	a1, a1, a0
	addi	a2, a2, %pcrel_lo(.Lnoise_pcrel_hi7)
	sub	a2, a1, a2
	li	a3, 5
	bltu	a3, a2, .Lnoise_BB19_22
	li	a2, 32
	li	a3, 46
	li	a4, 10
	sb	a2, 0(a1)
	sb	a2, 1(a1)
	sb	a3, 2(a1)
	sb	a3, 3(a1)
	sb	a3, 4(a1)
	sb	a4, 5(a1)
	j	.Lnoise_BB19_23
.Lnoise_BB19_22:
	li	a2, 10
	li	a3, 46
	sb	a3, 4(a1)
	sb	a2, 5(a1)
	li	a2, 32
	sb	a2, 0(a1)
	sb	a2, 1(a1)
	sb	a3, 2(a1)
	sb	a3, 3(a1)
.Lnoise_BB19_23:
	addi	a0, a0, 6
	sd	a0, 1080(sp)
.Lnoise_BB19_24:
	beqz	s4, .Lnoise_BB19_27
	li	s0, 0
	addi	s1, s3, 72
.Lnoise_BB19_26:
	ld	a3, 16(s1)
	addi	a0, sp, 536
	mv	a1, s0
	mv	a2, s1
	call	noise_noise_names_text_write_push_token_line
	xori	s0, s0, 1
	addi	s4, s4, -1
	addi	s1, s1, 24
	bnez	s4, .Lnoise_BB19_26
.Lnoise_BB19_27:
	addi	a1, sp, 536
	li	a2, 552
	mv	a0, s2
	call	memcpy
	ld	ra, 1400(sp)
	ld	s0, 1392(sp)
	ld	s1, 1384(sp)
	ld	s2, 1376(sp)
	ld	s3, 1368(sp)
	ld	s4, 1360(sp)
	ld	s5, 1352(sp)
	.cfi_restore ra
	.cfi_restore s0
	.cfi_restore s1
	.cfi_restore s2
	.cfi_restore s3
	.cfi_restore s4
	.cfi_restore s5
	addi	sp, sp, 1408
	.cfi_def_cfa_offset 0
	ret
.Lnoise_BB19_28:
	.cfi_restore_state
	unimp
.Lnoise_func_end19:
	.size	noise_noise_names_text_write_text, .Lnoise_func_end19-noise_noise_names_text_write_text
	.cfi_endproc

	.section	".text.noise_names::text::write::push_token_line","ax",@progbits
	.p2align	1
	.type	noise_noise_names_text_write_push_token_line,@function
noise_noise_names_text_write_push_token_line:
	.cfi_startproc
	addi	sp, sp, -80
	.cfi_def_cfa_offset 80
	sd	ra, 72(sp)
	sd	s0, 64(sp)
	sd	s1, 56(sp)
	sd	s2, 48(sp)
	sd	s3, 40(sp)
	sd	s4, 32(sp)
	sd	s5, 24(sp)
	sd	s6, 16(sp)
	sd	s7, 8(sp)
	sd	s8, 0(sp)
	.cfi_offset ra, -8
	.cfi_offset s0, -16
	.cfi_offset s1, -24
	.cfi_offset s2, -32
	.cfi_offset s3, -40
	.cfi_offset s4, -48
	.cfi_offset s5, -56
	.cfi_offset s6, -64
	.cfi_offset s7, -72
	.cfi_offset s8, -80
	.cfi_remember_state
	mv	s3, a2
	mv	s6, a0
	ld	a0, 544(a0)
	andi	a4, a0, -2
	li	a2, 540
	beq	a4, a2, .Lnoise_BB20_30
	add	a2, s6, a0
	li	a5, 32
	andi	a1, a1, 1
	sb	a5, 0(a2)
	sb	a5, 1(a2)
	bnez	a1, .Lnoise_BB20_3
.Lnoise_pcrel_hi9:
	auipc	a5, %pcrel_hi(.Lnoise_static.88)
	addi	a5, a5, %pcrel_lo(.Lnoise_pcrel_hi9)
	j	.Lnoise_BB20_4
.Lnoise_BB20_3:
.Lnoise_pcrel_hi8:
	auipc	a5, %pcrel_hi(.Lnoise_static.89)
	addi	a5, a5, %pcrel_lo(.Lnoise_pcrel_hi8)
.Lnoise_BB20_4:
	li	s1, 538
	beq	a4, s1, .Lnoise_BB20_30
	addi	s1, a2, 2
	sub	a4, s1, a5
	li	s0, 1
	bltu	s0, a4, .Lnoise_BB20_8
	lbu	a4, 0(a5)
	sb	a4, 2(a2)
	bnez	a1, .Lnoise_BB20_9
	li	a1, 62
	sb	a1, 3(a2)
	li	a1, 537
	bne	a0, a1, .Lnoise_BB20_10
	j	.Lnoise_BB20_30
.Lnoise_BB20_8:
	lbu	a1, 0(a5)
	lbu	a4, 1(a5)
	sb	a1, 0(s1)
	sb	a4, 1(s1)
	li	a1, 537
	bne	a0, a1, .Lnoise_BB20_10
	j	.Lnoise_BB20_30
.Lnoise_BB20_9:
	li	a1, 45
	sb	a1, 3(a2)
	li	a1, 537
	beq	a0, a1, .Lnoise_BB20_30
.Lnoise_BB20_10:
	li	a1, 32
	sb	a1, 4(a2)
	addi	s8, a0, 5
	sd	s8, 544(s6)
	beqz	a3, .Lnoise_BB20_28
	lbu	a1, 0(s3)
.Lnoise_pcrel_hi10:
	auipc	a2, %pcrel_hi(noise_Lnoise_switch_table_noise_names_text_write_push_token_line_196)
	slli	a1, a1, 3
	addi	s4, a2, %pcrel_lo(.Lnoise_pcrel_hi10)
	add	a2, s4, a1
	ld	s2, 0(a2)
	li	a2, 536
	sub	a2, a2, a0
	bltu	a2, s2, .Lnoise_BB20_30
.Lnoise_pcrel_hi11:
	auipc	s5, %pcrel_hi(noise_Lnoise_switch_table_noise_names_text_write_push_token_line_197)
	addi	s5, s5, %pcrel_lo(.Lnoise_pcrel_hi11)
	add	a1, a1, s5
	ld	a1, 0(a1)
	add	a0, s6, s8
	sub	a2, a0, a1
	addi	s7, a3, -1
	bgeu	a2, s2, .Lnoise_BB20_16
	add	a2, a1, s2
.Lnoise_BB20_14:
	lbu	a3, 0(a1)
	addi	a1, a1, 1
	sb	a3, 0(a0)
	addi	a0, a0, 1
	bne	a1, a2, .Lnoise_BB20_14
	add	s8, s8, s2
	bnez	s7, .Lnoise_BB20_17
	j	.Lnoise_BB20_28
.Lnoise_BB20_16:
	mv	a2, s2
	call	memcpy
	add	s8, s8, s2
	beqz	s7, .Lnoise_BB20_28
.Lnoise_BB20_17:
	li	s2, 0
	j	.Lnoise_BB20_20
.Lnoise_BB20_18:
	mv	a2, s1
	call	memcpy
.Lnoise_BB20_19:
	add	s8, s1, s0
	addi	s2, s2, 1
	sd	s8, 544(s6)
	beq	s2, s7, .Lnoise_BB20_28
.Lnoise_BB20_20:
	andi	a0, s8, -2
	li	a1, 540
	beq	a0, a1, .Lnoise_BB20_30
	add	a0, s6, s8
.Lnoise_pcrel_hi12:
	auipc	a1, %pcrel_hi(.Lnoise_static.85)
	addi	a1, a1, %pcrel_lo(.Lnoise_pcrel_hi12)
	sub	a1, a0, a1
	li	a2, 1
	bltu	a2, a1, .Lnoise_BB20_23
	li	a1, 44
	li	a2, 32
	sb	a1, 0(a0)
	sb	a2, 1(a0)
	j	.Lnoise_BB20_24
.Lnoise_BB20_23:
	li	a1, 32
	li	a2, 44
	sb	a2, 0(a0)
	sb	a1, 1(a0)
.Lnoise_BB20_24:
	add	a0, s3, s2
	addi	s0, s8, 2
	sd	s0, 544(s6)
	lbu	a0, 1(a0)
	slli	a0, a0, 3
	add	a1, s4, a0
	ld	s1, 0(a1)
	li	a1, 539
	sub	a1, a1, s8
	bltu	a1, s1, .Lnoise_BB20_30
	add	a0, a0, s5
	ld	a1, 0(a0)
	add	a0, s6, s0
	sub	a2, a0, a1
	bgeu	a2, s1, .Lnoise_BB20_18
	add	a2, a1, s1
.Lnoise_BB20_27:
	lbu	a3, 0(a1)
	addi	a1, a1, 1
	sb	a3, 0(a0)
	addi	a0, a0, 1
	bne	a1, a2, .Lnoise_BB20_27
	j	.Lnoise_BB20_19
.Lnoise_BB20_28:
	li	a0, 541
	beq	s8, a0, .Lnoise_BB20_30
	add	a0, s6, s8
	li	a1, 10
	addi	s8, s8, 1
	sb	a1, 0(a0)
	sd	s8, 544(s6)
	ld	ra, 72(sp)
	ld	s0, 64(sp)
	ld	s1, 56(sp)
	ld	s2, 48(sp)
	ld	s3, 40(sp)
	ld	s4, 32(sp)
	ld	s5, 24(sp)
	ld	s6, 16(sp)
	ld	s7, 8(sp)
	ld	s8, 0(sp)
	.cfi_restore ra
	.cfi_restore s0
	.cfi_restore s1
	.cfi_restore s2
	.cfi_restore s3
	.cfi_restore s4
	.cfi_restore s5
	.cfi_restore s6
	.cfi_restore s7
	.cfi_restore s8
	addi	sp, sp, 80
	.cfi_def_cfa_offset 0
	ret
.Lnoise_BB20_30:
	.cfi_restore_state
	unimp
.Lnoise_func_end20:
	.size	noise_noise_names_text_write_push_token_line, .Lnoise_func_end20-noise_noise_names_text_write_push_token_line
	.cfi_endproc

	.section	".text.core::cmp::slices::groups_equal::<i8,31'core::cmp::numbers::U8PartialEq{}>","ax",@progbits
	.p2align	1
	.type	noise_core_cmp_slices_groups_equal_i8_31_core_cmp_numbers_U8PartialEq,@function
noise_core_cmp_slices_groups_equal_i8_31_core_cmp_numbers_U8PartialEq:
	.cfi_startproc
	addi	sp, sp, -496
	.cfi_def_cfa_offset 496
	sd	ra, 488(sp)
	sd	s0, 480(sp)
	sd	s1, 472(sp)
	sd	s2, 464(sp)
	sd	s3, 456(sp)
	sd	s4, 448(sp)
	sd	s5, 440(sp)
	sd	s6, 432(sp)
	sd	s7, 424(sp)
	sd	s8, 416(sp)
	sd	s9, 408(sp)
	sd	s10, 400(sp)
	sd	s11, 392(sp)
	.cfi_offset ra, -8
	.cfi_offset s0, -16
	.cfi_offset s1, -24
	.cfi_offset s2, -32
	.cfi_offset s3, -40
	.cfi_offset s4, -48
	.cfi_offset s5, -56
	.cfi_offset s6, -64
	.cfi_offset s7, -72
	.cfi_offset s8, -80
	.cfi_offset s9, -88
	.cfi_offset s10, -96
	.cfi_offset s11, -104
	.cfi_remember_state
	li	a3, 8
	bltu	a3, a1, .Lnoise_BB21_3
	lbu	a7, 0(a0)
	lbu	t0, 1(a0)
	lbu	t1, 2(a0)
	lbu	a6, 3(a0)
	lbu	s0, 0(a2)
	lbu	s1, 1(a2)
	lbu	a3, 2(a2)
	lbu	t2, 3(a2)
	add	a0, a0, a1
	add	a1, a1, a2
	lbu	t3, -4(a0)
	lbu	t4, -3(a0)
	lbu	t5, -2(a0)
	lbu	t6, -1(a0)
	xor	s0, a7, s0
	xor	s1, t0, s1
	xor	a3, t1, a3
	lbu	a2, -4(a1)
	lbu	a5, -3(a1)
	lbu	a4, -2(a1)
	lbu	a1, -1(a1)
	xor	a0, a6, t2
	xor	a2, t3, a2
	xor	a5, t4, a5
	xor	a4, t5, a4
	xor	a1, t6, a1
	or	s0, s0, s1
	or	a0, a0, a3
	or	a2, a2, a5
	or	a1, a1, a4
	or	a1, a1, a2
	or	a0, a0, s0
.Lnoise_BB21_2:
	or	a0, a0, a1
	j	.Lnoise_BB21_11
.Lnoise_BB21_3:
	li	a3, 32
	bltu	a3, a1, .Lnoise_BB21_9
	addi	a6, a1, -8
	li	a4, 8
	mv	a5, a6
	bltu	a6, a4, .Lnoise_BB21_6
	li	a5, 8
.Lnoise_BB21_6:
	lbu	s9, 0(a0)
	lbu	s3, 1(a0)
	lbu	t3, 2(a0)
	lbu	a3, 3(a0)
	sd	a3, 384(sp)
	lbu	s2, 0(a2)
	lbu	s5, 1(a2)
	lbu	t4, 2(a2)
	lbu	a3, 3(a2)
	sd	a3, 344(sp)
	lbu	a3, 4(a0)
	sd	a3, 376(sp)
	lbu	a3, 5(a0)
	sd	a3, 360(sp)
	lbu	a3, 6(a0)
	sd	a3, 352(sp)
	lbu	a3, 7(a0)
	sd	a3, 368(sp)
	add	a3, a0, a5
	add	a5, a5, a2
	lbu	t6, 0(a3)
	lbu	s7, 1(a3)
	lbu	s11, 2(a3)
	lbu	ra, 3(a3)
	lbu	s0, 0(a5)
	lbu	a4, 1(a5)
	lbu	s1, 2(a5)
	lbu	s10, 3(a5)
	lbu	t5, 4(a3)
	lbu	s4, 5(a3)
	lbu	t0, 6(a3)
	lbu	a3, 7(a3)
	sd	a3, 296(sp)
	lbu	s6, 4(a5)
	lbu	s8, 5(a5)
	lbu	t2, 6(a5)
	lbu	t1, 7(a5)
	lbu	a3, 4(a2)
	sd	a3, 312(sp)
	lbu	a3, 5(a2)
	sd	a3, 304(sp)
	lbu	a3, 6(a2)
	sd	a3, 328(sp)
	lbu	a3, 7(a2)
	sd	a3, 336(sp)
	li	a3, 16
	mv	a7, a6
	bltu	a6, a3, .Lnoise_BB21_8
	li	a7, 16
.Lnoise_BB21_8:
	xor	a3, t6, s0
	sd	a3, 320(sp)
	xor	t6, s7, a4
	xor	s7, s11, s1
	xor	s11, ra, s10
	xor	t5, t5, s6
	xor	s4, s4, s8
	xor	s2, s9, s2
	xor	s5, s3, s5
	xor	s3, t3, t4
	add	a4, a0, a7
	add	a3, a2, a7
	add	t3, a0, a6
	add	a7, a2, a6
	add	a0, a0, a1
	add	a1, a1, a2
	xor	t0, t0, t2
	ld	a2, 296(sp)
	xor	a6, a2, t1
	ld	a2, 384(sp)
	ld	a5, 344(sp)
	xor	a5, a5, a2
	ld	a2, 376(sp)
	ld	s1, 312(sp)
	xor	s10, a2, s1
	ld	a2, 360(sp)
	ld	s1, 304(sp)
	xor	a2, a2, s1
	ld	s1, 352(sp)
	ld	s0, 328(sp)
	xor	t1, s1, s0
	ld	s1, 368(sp)
	ld	s0, 336(sp)
	xor	t2, s1, s0
	lbu	t4, 0(a4)
	lbu	s6, 1(a4)
	lbu	s8, 2(a4)
	lbu	s9, 3(a4)
	ld	s0, 320(sp)
	or	s0, s0, t6
	or	s1, s7, s11
	lbu	t6, 0(a3)
	lbu	s7, 1(a3)
	lbu	s11, 2(a3)
	lbu	ra, 3(a3)
	or	t5, t5, s4
	or	s2, s2, s5
	or	a5, s3, a5
	lbu	s3, 4(a4)
	lbu	s4, 5(a4)
	lbu	s5, 6(a4)
	lbu	a4, 7(a4)
	lbu	t3, 0(t3)
	lbu	a7, 0(a7)
	or	a2, s10, a2
	or	s0, s0, s1
	or	s1, t5, t0
	or	a5, s2, a5
	lbu	t0, -7(a0)
	lbu	t5, -6(a0)
	lbu	s2, -5(a0)
	lbu	s10, -4(a0)
	or	a2, a2, t1
	or	s0, s0, s1
	or	a2, a2, a5
	or	a6, s0, a6
	lbu	s1, -7(a1)
	lbu	s0, -6(a1)
	lbu	a5, -5(a1)
	lbu	t1, -4(a1)
	or	t2, a2, t2
	xor	a7, t3, a7
	lbu	a2, -3(a0)
	lbu	t3, -2(a0)
	lbu	a0, -1(a0)
	xor	t0, t0, s1
	xor	t5, t5, s0
	lbu	s1, -3(a1)
	lbu	s0, -2(a1)
	lbu	a1, -1(a1)
	xor	s2, s2, a5
	xor	s10, s10, t1
	xor	t1, a2, s1
	lbu	s1, 4(a3)
	lbu	a2, 5(a3)
	lbu	a5, 6(a3)
	lbu	a3, 7(a3)
	xor	t3, t3, s0
	xor	a0, a0, a1
	xor	t4, t4, t6
	xor	s0, s6, s7
	xor	t6, s8, s11
	xor	a1, s9, ra
	xor	s1, s3, s1
	xor	a2, s4, a2
	xor	a5, s5, a5
	xor	s3, a4, a3
	or	a4, t0, t5
	or	a3, s2, s10
	or	a0, t3, a0
	or	s0, t4, s0
	or	a1, t6, a1
	or	a2, a2, s1
	or	a4, a7, a4
	or	a3, a3, t1
	or	a1, a1, s0
	or	a2, a2, a5
	or	a3, a3, a4
	or	a1, a1, a2
	or	a0, a0, a3
	or	a1, a1, s3
	or	a2, t2, a6
	or	a0, a0, a1
	or	a0, a0, a2
	j	.Lnoise_BB21_11
.Lnoise_BB21_9:
	li	a3, 65
	bgeu	a1, a3, .Lnoise_BB21_13
	lbu	t6, 0(a0)
	lbu	s3, 1(a0)
	lbu	s4, 2(a0)
	lbu	t0, 3(a0)
	lbu	a4, 0(a2)
	lbu	s0, 1(a2)
	lbu	s11, 2(a2)
	lbu	s7, 3(a2)
	lbu	s2, 4(a0)
	lbu	s5, 5(a0)
	lbu	s6, 6(a0)
	lbu	a7, 7(a0)
	lbu	ra, 4(a2)
	lbu	a5, 5(a2)
	lbu	s10, 6(a2)
	lbu	t5, 7(a2)
	lbu	t2, 8(a0)
	lbu	t3, 9(a0)
	lbu	t4, 10(a0)
	lbu	a6, 11(a0)
	lbu	s1, 8(a2)
	lbu	s9, 9(a2)
	lbu	s8, 10(a2)
	lbu	t1, 11(a2)
	xor	a3, t6, a4
	sd	a3, 368(sp)
	xor	a3, s3, s0
	sd	a3, 360(sp)
	xor	a3, s4, s11
	sd	a3, 352(sp)
	lbu	s11, 12(a0)
	lbu	s4, 13(a0)
	lbu	s3, 14(a0)
	lbu	t6, 15(a0)
	xor	a3, t0, s7
	sd	a3, 320(sp)
	xor	a3, s2, ra
	sd	a3, 312(sp)
	xor	a3, s5, a5
	sd	a3, 304(sp)
	xor	a3, s6, s10
	sd	a3, 376(sp)
	lbu	a5, 12(a2)
	lbu	a3, 13(a2)
	lbu	s0, 14(a2)
	lbu	t0, 15(a2)
	xor	a4, a7, t5
	sd	a4, 280(sp)
	xor	a4, t2, s1
	sd	a4, 272(sp)
	xor	a4, t3, s9
	sd	a4, 336(sp)
	xor	a4, t4, s8
	sd	a4, 384(sp)
	lbu	t4, 16(a0)
	lbu	t3, 17(a0)
	lbu	a7, 18(a0)
	lbu	t2, 19(a0)
	xor	a4, a6, t1
	sd	a4, 248(sp)
	xor	a4, s11, a5
	sd	a4, 240(sp)
	xor	a3, s4, a3
	sd	a3, 288(sp)
	xor	a3, s3, s0
	sd	a3, 328(sp)
	lbu	a3, 16(a2)
	lbu	a5, 17(a2)
	lbu	s0, 18(a2)
	lbu	a4, 19(a2)
	xor	s1, t6, t0
	sd	s1, 344(sp)
	xor	a3, t4, a3
	sd	a3, 200(sp)
	xor	a3, t3, a5
	sd	a3, 192(sp)
	xor	a3, a7, s0
	sd	a3, 232(sp)
	lbu	a3, 20(a0)
	lbu	t0, 21(a0)
	lbu	a7, 22(a0)
	lbu	a6, 23(a0)
	xor	a4, t2, a4
	sd	a4, 256(sp)
	lbu	a4, 20(a2)
	lbu	s0, 21(a2)
	lbu	s1, 22(a2)
	lbu	a5, 23(a2)
	xor	a3, a3, a4
	sd	a3, 264(sp)
	xor	a3, t0, s0
	sd	a3, 296(sp)
	xor	a3, a7, s1
	sd	a3, 168(sp)
	xor	a3, a6, a5
	sd	a3, 160(sp)
	lbu	a3, 24(a0)
	lbu	t0, 25(a0)
	lbu	a7, 26(a0)
	lbu	a6, 27(a0)
	lbu	s0, 24(a2)
	lbu	s1, 25(a2)
	lbu	a5, 26(a2)
	lbu	a4, 27(a2)
	xor	a3, a3, s0
	sd	a3, 176(sp)
	xor	a3, t0, s1
	sd	a3, 184(sp)
	xor	a3, a7, a5
	sd	a3, 216(sp)
	xor	a3, a6, a4
	sd	a3, 224(sp)
	lbu	a3, 28(a0)
	lbu	a7, 29(a0)
	lbu	a5, 30(a0)
	lbu	a6, 31(a0)
	add	a0, a0, a1
	add	a1, a1, a2
	lbu	s0, 28(a2)
	lbu	s1, 29(a2)
	lbu	a4, 30(a2)
	lbu	a2, 31(a2)
	xor	a3, a3, s0
	sd	a3, 208(sp)
	xor	a3, a7, s1
	sd	a3, 144(sp)
	xor	a4, a4, a5
	sd	a4, 136(sp)
	xor	a2, a6, a2
	sd	a2, 152(sp)
	lbu	a6, -32(a0)
	lbu	a7, -31(a0)
	lbu	a4, -30(a0)
	lbu	a5, -29(a0)
	lbu	s1, -32(a1)
	lbu	s0, -31(a1)
	lbu	a2, -30(a1)
	lbu	a3, -29(a1)
	xor	s1, a6, s1
	sd	s1, 112(sp)
	xor	s1, a7, s0
	sd	s1, 104(sp)
	xor	a2, a2, a4
	sd	a2, 96(sp)
	xor	a3, a3, a5
	sd	a3, 88(sp)
	lbu	a6, -28(a0)
	lbu	a7, -27(a0)
	lbu	a4, -26(a0)
	lbu	a5, -25(a0)
	lbu	s1, -28(a1)
	lbu	s0, -27(a1)
	lbu	a2, -26(a1)
	lbu	a3, -25(a1)
	xor	s1, a6, s1
	sd	s1, 56(sp)
	xor	s1, a7, s0
	sd	s1, 48(sp)
	xor	a2, a2, a4
	sd	a2, 128(sp)
	xor	a3, a3, a5
	sd	a3, 40(sp)
	lbu	a6, -24(a0)
	lbu	a7, -23(a0)
	lbu	a4, -22(a0)
	lbu	a5, -21(a0)
	lbu	s1, -24(a1)
	lbu	s0, -23(a1)
	lbu	a2, -22(a1)
	lbu	a3, -21(a1)
	xor	s1, a6, s1
	sd	s1, 16(sp)
	xor	s1, a7, s0
	sd	s1, 72(sp)
	xor	a2, a2, a4
	sd	a2, 120(sp)
	xor	s11, a5, a3
	lbu	t1, -20(a0)
	lbu	t2, -19(a0)
	lbu	a5, -18(a0)
	lbu	a7, -17(a0)
	lbu	a3, -20(a1)
	lbu	s0, -19(a1)
	lbu	a2, -18(a1)
	lbu	a4, -17(a1)
	xor	s8, t1, a3
	xor	a3, t2, s0
	sd	a3, 24(sp)
	xor	a2, a2, a5
	sd	a2, 64(sp)
	xor	a2, a7, a4
	sd	a2, 80(sp)
	lbu	t1, -16(a0)
	lbu	t3, -15(a0)
	lbu	a6, -14(a0)
	lbu	a7, -13(a0)
	lbu	a2, -16(a1)
	lbu	a4, -15(a1)
	lbu	a3, -14(a1)
	lbu	a5, -13(a1)
	xor	s4, t1, a2
	xor	s3, t3, a4
	xor	s9, a6, a3
	xor	a2, a7, a5
	sd	a2, 8(sp)
	lbu	a7, -12(a0)
	lbu	a5, -11(a0)
	lbu	a6, -10(a0)
	lbu	t0, -9(a0)
	lbu	s0, -12(a1)
	lbu	a2, -11(a1)
	lbu	a3, -10(a1)
	lbu	a4, -9(a1)
	xor	s1, a7, s0
	sd	s1, 0(sp)
	xor	a2, a2, a5
	sd	a2, 32(sp)
	xor	s1, a6, a3
	xor	s0, t0, a4
	lbu	a6, -8(a0)
	lbu	t1, -7(a0)
	lbu	a7, -6(a0)
	lbu	t0, -5(a0)
	lbu	a2, -8(a1)
	lbu	a3, -7(a1)
	lbu	a4, -6(a1)
	lbu	a5, -5(a1)
	xor	s2, a6, a2
	xor	s5, t1, a3
	xor	s7, a7, a4
	xor	s10, t0, a5
	lbu	a5, -4(a0)
	lbu	a4, -3(a0)
	lbu	a6, -2(a0)
	lbu	t0, -1(a0)
	lbu	a0, -4(a1)
	lbu	a2, -3(a1)
	lbu	a3, -2(a1)
	lbu	a1, -1(a1)
	xor	s6, a5, a0
	xor	t5, a4, a2
	xor	t4, a6, a3
	xor	t6, t0, a1
	ld	a0, 368(sp)
	ld	a1, 360(sp)
	or	t3, a0, a1
	ld	a0, 352(sp)
	ld	a5, 320(sp)
	or	a5, a5, a0
	ld	a0, 312(sp)
	ld	a1, 304(sp)
	or	t1, a0, a1
	ld	a0, 280(sp)
	ld	a4, 272(sp)
	or	a4, a4, a0
	ld	a0, 248(sp)
	ld	a1, 240(sp)
	or	t0, a0, a1
	ld	a0, 200(sp)
	ld	a1, 192(sp)
	or	t2, a0, a1
	ld	a0, 168(sp)
	ld	a3, 160(sp)
	or	a3, a3, a0
	ld	a0, 144(sp)
	ld	a1, 136(sp)
	or	a6, a0, a1
	ld	a0, 112(sp)
	ld	a1, 104(sp)
	or	a7, a0, a1
	ld	a0, 96(sp)
	ld	a1, 88(sp)
	or	a0, a0, a1
	ld	a1, 56(sp)
	ld	a2, 48(sp)
	or	a1, a1, a2
	ld	a2, 40(sp)
	ld	ra, 16(sp)
	or	a2, a2, ra
	or	s8, s11, s8
	or	s3, s4, s3
	or	s4, s1, s0
	or	t4, t5, t4
	or	t3, t3, a5
	ld	a5, 376(sp)
	or	t5, t1, a5
	ld	a5, 336(sp)
	or	t1, a4, a5
	ld	a4, 288(sp)
	or	s11, t0, a4
	ld	a4, 232(sp)
	or	t2, t2, a4
	ld	a4, 176(sp)
	or	t0, a3, a4
	ld	a3, 152(sp)
	or	a6, a6, a3
	or	a0, a7, a0
	ld	a3, 128(sp)
	or	a1, a1, a3
	ld	a3, 72(sp)
	or	a2, a2, a3
	ld	a3, 24(sp)
	or	s8, s8, a3
	or	s3, s3, s9
	or	s2, s4, s2
	or	a7, t4, t6
	or	t3, t3, t5
	ld	a3, 384(sp)
	or	s1, t1, a3
	ld	a3, 328(sp)
	or	t1, s11, a3
	ld	a3, 256(sp)
	or	t2, t2, a3
	ld	a3, 184(sp)
	or	t4, t0, a3
	or	t0, a0, a1
	ld	a1, 120(sp)
	or	a1, a1, a2
	ld	a0, 64(sp)
	or	a2, s8, a0
	ld	a0, 8(sp)
	or	s0, s3, a0
	or	a0, s2, s5
	or	a4, t3, s1
	ld	a3, 344(sp)
	or	a3, t1, a3
	ld	s1, 264(sp)
	or	s1, t2, s1
	ld	a5, 216(sp)
	or	t1, t4, a5
	or	a1, t0, a1
	ld	a5, 80(sp)
	or	a2, a2, a5
	ld	a5, 0(sp)
	or	s0, s0, a5
	or	a0, a0, s7
	or	a3, a3, a4
	ld	a4, 296(sp)
	or	a4, a4, s1
	ld	a5, 224(sp)
	or	a5, t1, a5
	or	a1, a1, a2
	ld	a2, 32(sp)
	or	a2, a2, s0
	or	a0, a0, s10
	or	a3, a3, a4
	ld	a4, 208(sp)
	or	a4, a4, a5
	or	a1, a1, a2
	or	a0, a0, s6
	or	a3, a3, a4
	or	a0, a0, a1
	or	a0, a0, a7
	or	a1, a3, a6
	or	a0, a0, a1
.Lnoise_BB21_11:
	snez	a0, a0
.Lnoise_BB21_12:
	xori	a0, a0, 1
	ld	ra, 488(sp)
	ld	s0, 480(sp)
	ld	s1, 472(sp)
	ld	s2, 464(sp)
	ld	s3, 456(sp)
	ld	s4, 448(sp)
	ld	s5, 440(sp)
	ld	s6, 432(sp)
	ld	s7, 424(sp)
	ld	s8, 416(sp)
	ld	s9, 408(sp)
	ld	s10, 400(sp)
	ld	s11, 392(sp)
	.cfi_restore ra
	.cfi_restore s0
	.cfi_restore s1
	.cfi_restore s2
	.cfi_restore s3
	.cfi_restore s4
	.cfi_restore s5
	.cfi_restore s6
	.cfi_restore s7
	.cfi_restore s8
	.cfi_restore s9
	.cfi_restore s10
	.cfi_restore s11
	addi	sp, sp, 496
	.cfi_def_cfa_offset 0
	ret
.Lnoise_BB21_13:
	.cfi_restore_state
	li	a7, 0
	andi	a6, a1, -64
	mv	t0, a0
	mv	t1, a2
.Lnoise_BB21_14:
	li	s0, 0
	add	a3, a7, a2
	addi	t2, a3, 64
	mv	a5, t0
	mv	s1, t1
.Lnoise_BB21_15:
	lbu	a4, 0(a5)
	lbu	a3, 0(s1)
	addi	s1, s1, 1
	xor	a3, a3, a4
	snez	a3, a3
	or	s0, s0, a3
	addi	a5, a5, 1
	bne	s1, t2, .Lnoise_BB21_15
	andi	s0, s0, 1
	bnez	s0, .Lnoise_BB21_19
	addi	a7, a7, 64
	addi	t1, t1, 64
	sub	a3, a1, a7
	li	a4, 63
	addi	t0, t0, 64
	bltu	a4, a3, .Lnoise_BB21_14
	mv	a7, a6
.Lnoise_BB21_19:
	sub	a3, a1, a7
	li	a4, 32
	bltu	a3, a4, .Lnoise_BB21_56
	addi	a5, a7, 15
	add	a4, a0, a5
	add	a5, a5, a2
.Lnoise_BB21_21:
	lbu	s1, -15(a4)
	lbu	s0, -15(a5)
	bne	s1, s0, .Lnoise_BB21_54
	lbu	s1, -14(a4)
	lbu	s0, -14(a5)
	bne	s1, s0, .Lnoise_BB21_54
	lbu	s1, -13(a4)
	lbu	s0, -13(a5)
	bne	s1, s0, .Lnoise_BB21_54
	lbu	s1, -12(a4)
	lbu	s0, -12(a5)
	bne	s1, s0, .Lnoise_BB21_54
	lbu	s1, -11(a4)
	lbu	s0, -11(a5)
	bne	s1, s0, .Lnoise_BB21_54
	lbu	s1, -10(a4)
	lbu	s0, -10(a5)
	bne	s1, s0, .Lnoise_BB21_54
	lbu	s1, -9(a4)
	lbu	s0, -9(a5)
	bne	s1, s0, .Lnoise_BB21_54
	lbu	s1, -8(a4)
	lbu	s0, -8(a5)
	bne	s1, s0, .Lnoise_BB21_54
	lbu	s1, -7(a4)
	lbu	s0, -7(a5)
	bne	s1, s0, .Lnoise_BB21_54
	lbu	s1, -6(a4)
	lbu	s0, -6(a5)
	bne	s1, s0, .Lnoise_BB21_54
	lbu	s1, -5(a4)
	lbu	s0, -5(a5)
	bne	s1, s0, .Lnoise_BB21_54
	lbu	s1, -4(a4)
	lbu	s0, -4(a5)
	bne	s1, s0, .Lnoise_BB21_54
	lbu	s1, -3(a4)
	lbu	s0, -3(a5)
	bne	s1, s0, .Lnoise_BB21_54
	lbu	s1, -2(a4)
	lbu	s0, -2(a5)
	bne	s1, s0, .Lnoise_BB21_54
	lbu	s1, -1(a4)
	lbu	s0, -1(a5)
	bne	s1, s0, .Lnoise_BB21_54
	lbu	s1, 0(a4)
	lbu	s0, 0(a5)
	bne	s1, s0, .Lnoise_BB21_54
	lbu	s1, 1(a4)
	lbu	s0, 1(a5)
	bne	s1, s0, .Lnoise_BB21_54
	lbu	s1, 2(a4)
	lbu	s0, 2(a5)
	bne	s1, s0, .Lnoise_BB21_54
	lbu	s1, 3(a4)
	lbu	s0, 3(a5)
	bne	s1, s0, .Lnoise_BB21_54
	lbu	s1, 4(a4)
	lbu	s0, 4(a5)
	bne	s1, s0, .Lnoise_BB21_54
	lbu	s1, 5(a4)
	lbu	s0, 5(a5)
	bne	s1, s0, .Lnoise_BB21_54
	lbu	s1, 6(a4)
	lbu	s0, 6(a5)
	bne	s1, s0, .Lnoise_BB21_54
	lbu	s1, 7(a4)
	lbu	s0, 7(a5)
	bne	s1, s0, .Lnoise_BB21_54
	lbu	s1, 8(a4)
	lbu	s0, 8(a5)
	bne	s1, s0, .Lnoise_BB21_54
	lbu	s1, 9(a4)
	lbu	s0, 9(a5)
	bne	s1, s0, .Lnoise_BB21_54
	lbu	s1, 10(a4)
	lbu	s0, 10(a5)
	bne	s1, s0, .Lnoise_BB21_54
	lbu	s1, 11(a4)
	lbu	s0, 11(a5)
	bne	s1, s0, .Lnoise_BB21_54
	lbu	s1, 12(a4)
	lbu	s0, 12(a5)
	bne	s1, s0, .Lnoise_BB21_54
	lbu	s1, 13(a4)
	lbu	s0, 13(a5)
	bne	s1, s0, .Lnoise_BB21_54
	lbu	s1, 14(a4)
	lbu	s0, 14(a5)
	bne	s1, s0, .Lnoise_BB21_54
	lbu	s1, 15(a4)
	lbu	s0, 15(a5)
	bne	s1, s0, .Lnoise_BB21_54
	lbu	s1, 16(a4)
	lbu	s0, 16(a5)
	bne	s1, s0, .Lnoise_BB21_54
	addi	a3, a3, -32
	addi	a4, a4, 32
	li	s1, 31
	addi	a5, a5, 32
	bltu	s1, a3, .Lnoise_BB21_21
	j	.Lnoise_BB21_56
.Lnoise_BB21_54:
	li	a4, 31
	bgeu	a4, a3, .Lnoise_BB21_56
	li	a0, 1
	j	.Lnoise_BB21_12
.Lnoise_BB21_56:
	add	a0, a0, a1
	add	a1, a1, a2
	lbu	a6, -32(a0)
	lbu	a7, -31(a0)
	lbu	s1, -30(a0)
	lbu	t1, -29(a0)
	lbu	s8, -32(a1)
	lbu	a2, -31(a1)
	lbu	t2, -30(a1)
	lbu	t3, -29(a1)
	lbu	t4, -28(a0)
	lbu	t6, -27(a0)
	lbu	t5, -26(a0)
	lbu	s2, -25(a0)
	lbu	s11, -28(a1)
	lbu	ra, -27(a1)
	lbu	s3, -26(a1)
	lbu	s4, -25(a1)
	lbu	s7, -24(a0)
	lbu	t0, -23(a0)
	lbu	s5, -22(a0)
	lbu	s6, -21(a0)
	lbu	s0, -24(a1)
	lbu	a4, -23(a1)
	lbu	s9, -22(a1)
	lbu	s10, -21(a1)
	xor	a3, a6, s8
	sd	a3, 384(sp)
	xor	a2, a7, a2
	sd	a2, 376(sp)
	lbu	s8, -20(a0)
	lbu	a6, -19(a0)
	lbu	a7, -18(a0)
	lbu	a5, -17(a0)
	xor	a2, s1, t2
	sd	a2, 368(sp)
	xor	a2, t1, t3
	sd	a2, 352(sp)
	xor	a2, t4, s11
	sd	a2, 344(sp)
	xor	a2, t6, ra
	sd	a2, 336(sp)
	lbu	s11, -20(a1)
	lbu	ra, -19(a1)
	lbu	a2, -18(a1)
	lbu	a3, -17(a1)
	xor	s1, t5, s3
	sd	s1, 360(sp)
	xor	t6, s2, s4
	xor	s2, s7, s0
	xor	a4, t0, a4
	sd	a4, 328(sp)
	lbu	a4, -16(a0)
	lbu	s1, -15(a0)
	lbu	s3, -14(a0)
	lbu	s4, -13(a0)
	xor	s9, s5, s9
	xor	s7, s6, s10
	xor	s8, s8, s11
	xor	s5, a6, ra
	lbu	s0, -16(a1)
	lbu	s10, -15(a1)
	lbu	s11, -14(a1)
	lbu	ra, -13(a1)
	xor	s6, a7, a2
	xor	t5, a5, a3
	xor	t4, a4, s0
	xor	s10, s1, s10
	lbu	a2, -12(a0)
	lbu	s0, -11(a0)
	lbu	s1, -10(a0)
	lbu	a3, -9(a0)
	xor	s11, s3, s11
	xor	s3, s4, ra
	lbu	a4, -12(a1)
	lbu	a5, -11(a1)
	lbu	s4, -10(a1)
	lbu	ra, -9(a1)
	xor	t2, a2, a4
	xor	t3, s0, a5
	xor	s4, s1, s4
	xor	ra, a3, ra
	lbu	s0, -8(a0)
	lbu	s1, -7(a0)
	lbu	a7, -6(a0)
	lbu	a6, -5(a0)
	lbu	a2, -8(a1)
	lbu	a3, -7(a1)
	lbu	a4, -6(a1)
	lbu	a5, -5(a1)
	xor	t0, s0, a2
	xor	t1, s1, a3
	xor	a7, a7, a4
	xor	a6, a6, a5
	lbu	s1, -4(a0)
	lbu	s0, -3(a0)
	lbu	a5, -2(a0)
	lbu	a3, -1(a0)
	lbu	a4, -4(a1)
	lbu	a0, -3(a1)
	lbu	a2, -2(a1)
	lbu	a1, -1(a1)
	xor	a4, a4, s1
	xor	a0, a0, s0
	xor	a2, a2, a5
	xor	a1, a1, a3
	ld	a3, 384(sp)
	ld	a5, 376(sp)
	or	a3, a3, a5
	ld	a5, 368(sp)
	ld	s0, 352(sp)
	or	a5, a5, s0
	ld	s0, 344(sp)
	ld	s1, 336(sp)
	or	s0, s0, s1
	or	s1, t6, s2
	or	t6, s7, s8
	or	t4, t4, s10
	or	s2, s4, ra
	or	s4, a0, a2
	or	a3, a3, a5
	ld	a2, 360(sp)
	or	a2, a2, s0
	ld	a5, 328(sp)
	or	a5, a5, s1
	or	s1, t6, s5
	or	s0, t4, s11
	or	a0, s2, t0
	or	a2, a2, a3
	or	a3, a5, s9
	or	a5, s1, s6
	or	s1, s0, s3
	or	a0, a0, t1
	or	a2, a2, a3
	or	a3, a5, t5
	or	a5, s1, t2
	or	a0, a0, a7
	or	a2, a2, a3
	or	a3, a5, t3
	or	a0, a0, a6
	or	a2, a2, a3
	or	a0, a0, a4
	or	a0, a0, a2
	or	a1, s4, a1
	j	.Lnoise_BB21_2
.Lnoise_func_end21:
	.size	noise_core_cmp_slices_groups_equal_i8_31_core_cmp_numbers_U8PartialEq, .Lnoise_func_end21-noise_core_cmp_slices_groups_equal_i8_31_core_cmp_numbers_U8PartialEq
	.cfi_endproc

	.section	".text.core::cmp::slices::groups_equal::<#1549cde59530a8ca>","ax",@progbits
	.p2align	1
	.type	noise_core_cmp_slices_groups_equal_1549cde59530a8ca,@function
noise_core_cmp_slices_groups_equal_1549cde59530a8ca:
	.cfi_startproc
	addi	sp, sp, -496
	.cfi_def_cfa_offset 496
	sd	ra, 488(sp)
	sd	s0, 480(sp)
	sd	s1, 472(sp)
	sd	s2, 464(sp)
	sd	s3, 456(sp)
	sd	s4, 448(sp)
	sd	s5, 440(sp)
	sd	s6, 432(sp)
	sd	s7, 424(sp)
	sd	s8, 416(sp)
	sd	s9, 408(sp)
	sd	s10, 400(sp)
	sd	s11, 392(sp)
	.cfi_offset ra, -8
	.cfi_offset s0, -16
	.cfi_offset s1, -24
	.cfi_offset s2, -32
	.cfi_offset s3, -40
	.cfi_offset s4, -48
	.cfi_offset s5, -56
	.cfi_offset s6, -64
	.cfi_offset s7, -72
	.cfi_offset s8, -80
	.cfi_offset s9, -88
	.cfi_offset s10, -96
	.cfi_offset s11, -104
	.cfi_remember_state
	li	a3, 8
	bltu	a3, a1, .Lnoise_BB22_3
	lbu	a7, 0(a0)
	lbu	t0, 1(a0)
	lbu	t1, 2(a0)
	lbu	a6, 3(a0)
	lbu	s0, 0(a2)
	lbu	s1, 1(a2)
	lbu	a3, 2(a2)
	lbu	t2, 3(a2)
	add	a0, a0, a1
	add	a1, a1, a2
	lbu	t3, -4(a0)
	lbu	t4, -3(a0)
	lbu	t5, -2(a0)
	lbu	t6, -1(a0)
	xor	s0, a7, s0
	xor	s1, t0, s1
	xor	a3, t1, a3
	lbu	a2, -4(a1)
	lbu	a5, -3(a1)
	lbu	a4, -2(a1)
	lbu	a1, -1(a1)
	xor	a0, a6, t2
	xor	a2, t3, a2
	xor	a5, t4, a5
	xor	a4, t5, a4
	xor	a1, t6, a1
	or	s0, s0, s1
	or	a0, a0, a3
	or	a2, a2, a5
	or	a1, a1, a4
	or	a1, a1, a2
	or	a0, a0, s0
.Lnoise_BB22_2:
	or	a0, a0, a1
	j	.Lnoise_BB22_11
.Lnoise_BB22_3:
	li	a3, 32
	bltu	a3, a1, .Lnoise_BB22_9
	addi	a6, a1, -8
	li	a4, 8
	mv	a5, a6
	bltu	a6, a4, .Lnoise_BB22_6
	li	a5, 8
.Lnoise_BB22_6:
	lbu	s9, 0(a0)
	lbu	s3, 1(a0)
	lbu	t3, 2(a0)
	lbu	a3, 3(a0)
	sd	a3, 384(sp)
	lbu	s2, 0(a2)
	lbu	s5, 1(a2)
	lbu	t4, 2(a2)
	lbu	a3, 3(a2)
	sd	a3, 344(sp)
	lbu	a3, 4(a0)
	sd	a3, 376(sp)
	lbu	a3, 5(a0)
	sd	a3, 360(sp)
	lbu	a3, 6(a0)
	sd	a3, 352(sp)
	lbu	a3, 7(a0)
	sd	a3, 368(sp)
	add	a3, a0, a5
	add	a5, a5, a2
	lbu	t6, 0(a3)
	lbu	s7, 1(a3)
	lbu	s11, 2(a3)
	lbu	ra, 3(a3)
	lbu	s0, 0(a5)
	lbu	a4, 1(a5)
	lbu	s1, 2(a5)
	lbu	s10, 3(a5)
	lbu	t5, 4(a3)
	lbu	s4, 5(a3)
	lbu	t0, 6(a3)
	lbu	a3, 7(a3)
	sd	a3, 296(sp)
	lbu	s6, 4(a5)
	lbu	s8, 5(a5)
	lbu	t2, 6(a5)
	lbu	t1, 7(a5)
	lbu	a3, 4(a2)
	sd	a3, 312(sp)
	lbu	a3, 5(a2)
	sd	a3, 304(sp)
	lbu	a3, 6(a2)
	sd	a3, 328(sp)
	lbu	a3, 7(a2)
	sd	a3, 336(sp)
	li	a3, 16
	mv	a7, a6
	bltu	a6, a3, .Lnoise_BB22_8
	li	a7, 16
.Lnoise_BB22_8:
	xor	a3, t6, s0
	sd	a3, 320(sp)
	xor	t6, s7, a4
	xor	s7, s11, s1
	xor	s11, ra, s10
	xor	t5, t5, s6
	xor	s4, s4, s8
	xor	s2, s9, s2
	xor	s5, s3, s5
	xor	s3, t3, t4
	add	a4, a0, a7
	add	a3, a2, a7
	add	t3, a0, a6
	add	a7, a2, a6
	add	a0, a0, a1
	add	a1, a1, a2
	xor	t0, t0, t2
	ld	a2, 296(sp)
	xor	a6, a2, t1
	ld	a2, 384(sp)
	ld	a5, 344(sp)
	xor	a5, a5, a2
	ld	a2, 376(sp)
	ld	s1, 312(sp)
	xor	s10, a2, s1
	ld	a2, 360(sp)
	ld	s1, 304(sp)
	xor	a2, a2, s1
	ld	s1, 352(sp)
	ld	s0, 328(sp)
	xor	t1, s1, s0
	ld	s1, 368(sp)
	ld	s0, 336(sp)
	xor	t2, s1, s0
	lbu	t4, 0(a4)
	lbu	s6, 1(a4)
	lbu	s8, 2(a4)
	lbu	s9, 3(a4)
	ld	s0, 320(sp)
	or	s0, s0, t6
	or	s1, s7, s11
	lbu	t6, 0(a3)
	lbu	s7, 1(a3)
	lbu	s11, 2(a3)
	lbu	ra, 3(a3)
	or	t5, t5, s4
	or	s2, s2, s5
	or	a5, s3, a5
	lbu	s3, 4(a4)
	lbu	s4, 5(a4)
	lbu	s5, 6(a4)
	lbu	a4, 7(a4)
	lbu	t3, 0(t3)
	lbu	a7, 0(a7)
	or	a2, s10, a2
	or	s0, s0, s1
	or	s1, t5, t0
	or	a5, s2, a5
	lbu	t0, -7(a0)
	lbu	t5, -6(a0)
	lbu	s2, -5(a0)
	lbu	s10, -4(a0)
	or	a2, a2, t1
	or	s0, s0, s1
	or	a2, a2, a5
	or	a6, s0, a6
	lbu	s1, -7(a1)
	lbu	s0, -6(a1)
	lbu	a5, -5(a1)
	lbu	t1, -4(a1)
	or	t2, a2, t2
	xor	a7, t3, a7
	lbu	a2, -3(a0)
	lbu	t3, -2(a0)
	lbu	a0, -1(a0)
	xor	t0, t0, s1
	xor	t5, t5, s0
	lbu	s1, -3(a1)
	lbu	s0, -2(a1)
	lbu	a1, -1(a1)
	xor	s2, s2, a5
	xor	s10, s10, t1
	xor	t1, a2, s1
	lbu	s1, 4(a3)
	lbu	a2, 5(a3)
	lbu	a5, 6(a3)
	lbu	a3, 7(a3)
	xor	t3, t3, s0
	xor	a0, a0, a1
	xor	t4, t4, t6
	xor	s0, s6, s7
	xor	t6, s8, s11
	xor	a1, s9, ra
	xor	s1, s3, s1
	xor	a2, s4, a2
	xor	a5, s5, a5
	xor	s3, a4, a3
	or	a4, t0, t5
	or	a3, s2, s10
	or	a0, t3, a0
	or	s0, t4, s0
	or	a1, t6, a1
	or	a2, a2, s1
	or	a4, a7, a4
	or	a3, a3, t1
	or	a1, a1, s0
	or	a2, a2, a5
	or	a3, a3, a4
	or	a1, a1, a2
	or	a0, a0, a3
	or	a1, a1, s3
	or	a2, t2, a6
	or	a0, a0, a1
	or	a0, a0, a2
	j	.Lnoise_BB22_11
.Lnoise_BB22_9:
	li	a3, 65
	bgeu	a1, a3, .Lnoise_BB22_13
	lbu	t6, 0(a0)
	lbu	s3, 1(a0)
	lbu	s4, 2(a0)
	lbu	t0, 3(a0)
	lbu	a4, 0(a2)
	lbu	s0, 1(a2)
	lbu	s11, 2(a2)
	lbu	s7, 3(a2)
	lbu	s2, 4(a0)
	lbu	s5, 5(a0)
	lbu	s6, 6(a0)
	lbu	a7, 7(a0)
	lbu	ra, 4(a2)
	lbu	a5, 5(a2)
	lbu	s10, 6(a2)
	lbu	t5, 7(a2)
	lbu	t2, 8(a0)
	lbu	t3, 9(a0)
	lbu	t4, 10(a0)
	lbu	a6, 11(a0)
	lbu	s1, 8(a2)
	lbu	s9, 9(a2)
	lbu	s8, 10(a2)
	lbu	t1, 11(a2)
	xor	a3, t6, a4
	sd	a3, 368(sp)
	xor	a3, s3, s0
	sd	a3, 360(sp)
	xor	a3, s4, s11
	sd	a3, 352(sp)
	lbu	s11, 12(a0)
	lbu	s4, 13(a0)
	lbu	s3, 14(a0)
	lbu	t6, 15(a0)
	xor	a3, t0, s7
	sd	a3, 320(sp)
	xor	a3, s2, ra
	sd	a3, 312(sp)
	xor	a3, s5, a5
	sd	a3, 304(sp)
	xor	a3, s6, s10
	sd	a3, 376(sp)
	lbu	a5, 12(a2)
	lbu	a3, 13(a2)
	lbu	s0, 14(a2)
	lbu	t0, 15(a2)
	xor	a4, a7, t5
	sd	a4, 280(sp)
	xor	a4, t2, s1
	sd	a4, 272(sp)
	xor	a4, t3, s9
	sd	a4, 336(sp)
	xor	a4, t4, s8
	sd	a4, 384(sp)
	lbu	t4, 16(a0)
	lbu	t3, 17(a0)
	lbu	a7, 18(a0)
	lbu	t2, 19(a0)
	xor	a4, a6, t1
	sd	a4, 248(sp)
	xor	a4, s11, a5
	sd	a4, 240(sp)
	xor	a3, s4, a3
	sd	a3, 288(sp)
	xor	a3, s3, s0
	sd	a3, 328(sp)
	lbu	a3, 16(a2)
	lbu	a5, 17(a2)
	lbu	s0, 18(a2)
	lbu	a4, 19(a2)
	xor	s1, t6, t0
	sd	s1, 344(sp)
	xor	a3, t4, a3
	sd	a3, 200(sp)
	xor	a3, t3, a5
	sd	a3, 192(sp)
	xor	a3, a7, s0
	sd	a3, 232(sp)
	lbu	a3, 20(a0)
	lbu	t0, 21(a0)
	lbu	a7, 22(a0)
	lbu	a6, 23(a0)
	xor	a4, t2, a4
	sd	a4, 256(sp)
	lbu	a4, 20(a2)
	lbu	s0, 21(a2)
	lbu	s1, 22(a2)
	lbu	a5, 23(a2)
	xor	a3, a3, a4
	sd	a3, 264(sp)
	xor	a3, t0, s0
	sd	a3, 296(sp)
	xor	a3, a7, s1
	sd	a3, 168(sp)
	xor	a3, a6, a5
	sd	a3, 160(sp)
	lbu	a3, 24(a0)
	lbu	t0, 25(a0)
	lbu	a7, 26(a0)
	lbu	a6, 27(a0)
	lbu	s0, 24(a2)
	lbu	s1, 25(a2)
	lbu	a5, 26(a2)
	lbu	a4, 27(a2)
	xor	a3, a3, s0
	sd	a3, 176(sp)
	xor	a3, t0, s1
	sd	a3, 184(sp)
	xor	a3, a7, a5
	sd	a3, 216(sp)
	xor	a3, a6, a4
	sd	a3, 224(sp)
	lbu	a3, 28(a0)
	lbu	a7, 29(a0)
	lbu	a5, 30(a0)
	lbu	a6, 31(a0)
	add	a0, a0, a1
	add	a1, a1, a2
	lbu	s0, 28(a2)
	lbu	s1, 29(a2)
	lbu	a4, 30(a2)
	lbu	a2, 31(a2)
	xor	a3, a3, s0
	sd	a3, 208(sp)
	xor	a3, a7, s1
	sd	a3, 144(sp)
	xor	a4, a4, a5
	sd	a4, 136(sp)
	xor	a2, a6, a2
	sd	a2, 152(sp)
	lbu	a6, -32(a0)
	lbu	a7, -31(a0)
	lbu	a4, -30(a0)
	lbu	a5, -29(a0)
	lbu	s1, -32(a1)
	lbu	s0, -31(a1)
	lbu	a2, -30(a1)
	lbu	a3, -29(a1)
	xor	s1, a6, s1
	sd	s1, 112(sp)
	xor	s1, a7, s0
	sd	s1, 104(sp)
	xor	a2, a2, a4
	sd	a2, 96(sp)
	xor	a3, a3, a5
	sd	a3, 88(sp)
	lbu	a6, -28(a0)
	lbu	a7, -27(a0)
	lbu	a4, -26(a0)
	lbu	a5, -25(a0)
	lbu	s1, -28(a1)
	lbu	s0, -27(a1)
	lbu	a2, -26(a1)
	lbu	a3, -25(a1)
	xor	s1, a6, s1
	sd	s1, 56(sp)
	xor	s1, a7, s0
	sd	s1, 48(sp)
	xor	a2, a2, a4
	sd	a2, 128(sp)
	xor	a3, a3, a5
	sd	a3, 40(sp)
	lbu	a6, -24(a0)
	lbu	a7, -23(a0)
	lbu	a4, -22(a0)
	lbu	a5, -21(a0)
	lbu	s1, -24(a1)
	lbu	s0, -23(a1)
	lbu	a2, -22(a1)
	lbu	a3, -21(a1)
	xor	s1, a6, s1
	sd	s1, 16(sp)
	xor	s1, a7, s0
	sd	s1, 72(sp)
	xor	a2, a2, a4
	sd	a2, 120(sp)
	xor	s11, a5, a3
	lbu	t1, -20(a0)
	lbu	t2, -19(a0)
	lbu	a5, -18(a0)
	lbu	a7, -17(a0)
	lbu	a3, -20(a1)
	lbu	s0, -19(a1)
	lbu	a2, -18(a1)
	lbu	a4, -17(a1)
	xor	s8, t1, a3
	xor	a3, t2, s0
	sd	a3, 24(sp)
	xor	a2, a2, a5
	sd	a2, 64(sp)
	xor	a2, a7, a4
	sd	a2, 80(sp)
	lbu	t1, -16(a0)
	lbu	t3, -15(a0)
	lbu	a6, -14(a0)
	lbu	a7, -13(a0)
	lbu	a2, -16(a1)
	lbu	a4, -15(a1)
	lbu	a3, -14(a1)
	lbu	a5, -13(a1)
	xor	s4, t1, a2
	xor	s3, t3, a4
	xor	s9, a6, a3
	xor	a2, a7, a5
	sd	a2, 8(sp)
	lbu	a7, -12(a0)
	lbu	a5, -11(a0)
	lbu	a6, -10(a0)
	lbu	t0, -9(a0)
	lbu	s0, -12(a1)
	lbu	a2, -11(a1)
	lbu	a3, -10(a1)
	lbu	a4, -9(a1)
	xor	s1, a7, s0
	sd	s1, 0(sp)
	xor	a2, a2, a5
	sd	a2, 32(sp)
	xor	s1, a6, a3
	xor	s0, t0, a4
	lbu	a6, -8(a0)
	lbu	t1, -7(a0)
	lbu	a7, -6(a0)
	lbu	t0, -5(a0)
	lbu	a2, -8(a1)
	lbu	a3, -7(a1)
	lbu	a4, -6(a1)
	lbu	a5, -5(a1)
	xor	s2, a6, a2
	xor	s5, t1, a3
	xor	s7, a7, a4
	xor	s10, t0, a5
	lbu	a5, -4(a0)
	lbu	a4, -3(a0)
	lbu	a6, -2(a0)
	lbu	t0, -1(a0)
	lbu	a0, -4(a1)
	lbu	a2, -3(a1)
	lbu	a3, -2(a1)
	lbu	a1, -1(a1)
	xor	s6, a5, a0
	xor	t5, a4, a2
	xor	t4, a6, a3
	xor	t6, t0, a1
	ld	a0, 368(sp)
	ld	a1, 360(sp)
	or	t3, a0, a1
	ld	a0, 352(sp)
	ld	a5, 320(sp)
	or	a5, a5, a0
	ld	a0, 312(sp)
	ld	a1, 304(sp)
	or	t1, a0, a1
	ld	a0, 280(sp)
	ld	a4, 272(sp)
	or	a4, a4, a0
	ld	a0, 248(sp)
	ld	a1, 240(sp)
	or	t0, a0, a1
	ld	a0, 200(sp)
	ld	a1, 192(sp)
	or	t2, a0, a1
	ld	a0, 168(sp)
	ld	a3, 160(sp)
	or	a3, a3, a0
	ld	a0, 144(sp)
	ld	a1, 136(sp)
	or	a6, a0, a1
	ld	a0, 112(sp)
	ld	a1, 104(sp)
	or	a7, a0, a1
	ld	a0, 96(sp)
	ld	a1, 88(sp)
	or	a0, a0, a1
	ld	a1, 56(sp)
	ld	a2, 48(sp)
	or	a1, a1, a2
	ld	a2, 40(sp)
	ld	ra, 16(sp)
	or	a2, a2, ra
	or	s8, s11, s8
	or	s3, s4, s3
	or	s4, s1, s0
	or	t4, t5, t4
	or	t3, t3, a5
	ld	a5, 376(sp)
	or	t5, t1, a5
	ld	a5, 336(sp)
	or	t1, a4, a5
	ld	a4, 288(sp)
	or	s11, t0, a4
	ld	a4, 232(sp)
	or	t2, t2, a4
	ld	a4, 176(sp)
	or	t0, a3, a4
	ld	a3, 152(sp)
	or	a6, a6, a3
	or	a0, a7, a0
	ld	a3, 128(sp)
	or	a1, a1, a3
	ld	a3, 72(sp)
	or	a2, a2, a3
	ld	a3, 24(sp)
	or	s8, s8, a3
	or	s3, s3, s9
	or	s2, s4, s2
	or	a7, t4, t6
	or	t3, t3, t5
	ld	a3, 384(sp)
	or	s1, t1, a3
	ld	a3, 328(sp)
	or	t1, s11, a3
	ld	a3, 256(sp)
	or	t2, t2, a3
	ld	a3, 184(sp)
	or	t4, t0, a3
	or	t0, a0, a1
	ld	a1, 120(sp)
	or	a1, a1, a2
	ld	a0, 64(sp)
	or	a2, s8, a0
	ld	a0, 8(sp)
	or	s0, s3, a0
	or	a0, s2, s5
	or	a4, t3, s1
	ld	a3, 344(sp)
	or	a3, t1, a3
	ld	s1, 264(sp)
	or	s1, t2, s1
	ld	a5, 216(sp)
	or	t1, t4, a5
	or	a1, t0, a1
	ld	a5, 80(sp)
	or	a2, a2, a5
	ld	a5, 0(sp)
	or	s0, s0, a5
	or	a0, a0, s7
	or	a3, a3, a4
	ld	a4, 296(sp)
	or	a4, a4, s1
	ld	a5, 224(sp)
	or	a5, t1, a5
	or	a1, a1, a2
	ld	a2, 32(sp)
	or	a2, a2, s0
	or	a0, a0, s10
	or	a3, a3, a4
	ld	a4, 208(sp)
	or	a4, a4, a5
	or	a1, a1, a2
	or	a0, a0, s6
	or	a3, a3, a4
	or	a0, a0, a1
	or	a0, a0, a7
	or	a1, a3, a6
	or	a0, a0, a1
.Lnoise_BB22_11:
	snez	a0, a0
.Lnoise_BB22_12:
	xori	a0, a0, 1
	ld	ra, 488(sp)
	ld	s0, 480(sp)
	ld	s1, 472(sp)
	ld	s2, 464(sp)
	ld	s3, 456(sp)
	ld	s4, 448(sp)
	ld	s5, 440(sp)
	ld	s6, 432(sp)
	ld	s7, 424(sp)
	ld	s8, 416(sp)
	ld	s9, 408(sp)
	ld	s10, 400(sp)
	ld	s11, 392(sp)
	.cfi_restore ra
	.cfi_restore s0
	.cfi_restore s1
	.cfi_restore s2
	.cfi_restore s3
	.cfi_restore s4
	.cfi_restore s5
	.cfi_restore s6
	.cfi_restore s7
	.cfi_restore s8
	.cfi_restore s9
	.cfi_restore s10
	.cfi_restore s11
	addi	sp, sp, 496
	.cfi_def_cfa_offset 0
	ret
.Lnoise_BB22_13:
	.cfi_restore_state
	li	a7, 0
	andi	a6, a1, -64
	mv	t0, a0
	mv	t1, a2
.Lnoise_BB22_14:
	li	s0, 0
	add	a3, a7, a2
	addi	t2, a3, 64
	mv	a5, t0
	mv	s1, t1
.Lnoise_BB22_15:
	lbu	a4, 0(a5)
	lbu	a3, 0(s1)
	addi	s1, s1, 1
	xor	a3, a3, a4
	snez	a3, a3
	or	s0, s0, a3
	addi	a5, a5, 1
	bne	s1, t2, .Lnoise_BB22_15
	andi	s0, s0, 1
	bnez	s0, .Lnoise_BB22_19
	addi	a7, a7, 64
	addi	t1, t1, 64
	sub	a3, a1, a7
	li	a4, 63
	addi	t0, t0, 64
	bltu	a4, a3, .Lnoise_BB22_14
	mv	a7, a6
.Lnoise_BB22_19:
	sub	a3, a1, a7
	li	a4, 32
	bltu	a3, a4, .Lnoise_BB22_56
	addi	a5, a7, 15
	add	a4, a0, a5
	add	a5, a5, a2
.Lnoise_BB22_21:
	lbu	s1, -15(a4)
	lbu	s0, -15(a5)
	bne	s1, s0, .Lnoise_BB22_54
	lbu	s1, -14(a4)
	lbu	s0, -14(a5)
	bne	s1, s0, .Lnoise_BB22_54
	lbu	s1, -13(a4)
	lbu	s0, -13(a5)
	bne	s1, s0, .Lnoise_BB22_54
	lbu	s1, -12(a4)
	lbu	s0, -12(a5)
	bne	s1, s0, .Lnoise_BB22_54
	lbu	s1, -11(a4)
	lbu	s0, -11(a5)
	bne	s1, s0, .Lnoise_BB22_54
	lbu	s1, -10(a4)
	lbu	s0, -10(a5)
	bne	s1, s0, .Lnoise_BB22_54
	lbu	s1, -9(a4)
	lbu	s0, -9(a5)
	bne	s1, s0, .Lnoise_BB22_54
	lbu	s1, -8(a4)
	lbu	s0, -8(a5)
	bne	s1, s0, .Lnoise_BB22_54
	lbu	s1, -7(a4)
	lbu	s0, -7(a5)
	bne	s1, s0, .Lnoise_BB22_54
	lbu	s1, -6(a4)
	lbu	s0, -6(a5)
	bne	s1, s0, .Lnoise_BB22_54
	lbu	s1, -5(a4)
	lbu	s0, -5(a5)
	bne	s1, s0, .Lnoise_BB22_54
	lbu	s1, -4(a4)
	lbu	s0, -4(a5)
	bne	s1, s0, .Lnoise_BB22_54
	lbu	s1, -3(a4)
	lbu	s0, -3(a5)
	bne	s1, s0, .Lnoise_BB22_54
	lbu	s1, -2(a4)
	lbu	s0, -2(a5)
	bne	s1, s0, .Lnoise_BB22_54
	lbu	s1, -1(a4)
	lbu	s0, -1(a5)
	bne	s1, s0, .Lnoise_BB22_54
	lbu	s1, 0(a4)
	lbu	s0, 0(a5)
	bne	s1, s0, .Lnoise_BB22_54
	lbu	s1, 1(a4)
	lbu	s0, 1(a5)
	bne	s1, s0, .Lnoise_BB22_54
	lbu	s1, 2(a4)
	lbu	s0, 2(a5)
	bne	s1, s0, .Lnoise_BB22_54
	lbu	s1, 3(a4)
	lbu	s0, 3(a5)
	bne	s1, s0, .Lnoise_BB22_54
	lbu	s1, 4(a4)
	lbu	s0, 4(a5)
	bne	s1, s0, .Lnoise_BB22_54
	lbu	s1, 5(a4)
	lbu	s0, 5(a5)
	bne	s1, s0, .Lnoise_BB22_54
	lbu	s1, 6(a4)
	lbu	s0, 6(a5)
	bne	s1, s0, .Lnoise_BB22_54
	lbu	s1, 7(a4)
	lbu	s0, 7(a5)
	bne	s1, s0, .Lnoise_BB22_54
	lbu	s1, 8(a4)
	lbu	s0, 8(a5)
	bne	s1, s0, .Lnoise_BB22_54
	lbu	s1, 9(a4)
	lbu	s0, 9(a5)
	bne	s1, s0, .Lnoise_BB22_54
	lbu	s1, 10(a4)
	lbu	s0, 10(a5)
	bne	s1, s0, .Lnoise_BB22_54
	lbu	s1, 11(a4)
	lbu	s0, 11(a5)
	bne	s1, s0, .Lnoise_BB22_54
	lbu	s1, 12(a4)
	lbu	s0, 12(a5)
	bne	s1, s0, .Lnoise_BB22_54
	lbu	s1, 13(a4)
	lbu	s0, 13(a5)
	bne	s1, s0, .Lnoise_BB22_54
	lbu	s1, 14(a4)
	lbu	s0, 14(a5)
	bne	s1, s0, .Lnoise_BB22_54
	lbu	s1, 15(a4)
	lbu	s0, 15(a5)
	bne	s1, s0, .Lnoise_BB22_54
	lbu	s1, 16(a4)
	lbu	s0, 16(a5)
	bne	s1, s0, .Lnoise_BB22_54
	addi	a3, a3, -32
	addi	a4, a4, 32
	li	s1, 32
	addi	a5, a5, 32
	bgeu	a3, s1, .Lnoise_BB22_21
	j	.Lnoise_BB22_56
.Lnoise_BB22_54:
	li	a4, 31
	bgeu	a4, a3, .Lnoise_BB22_56
	li	a0, 1
	j	.Lnoise_BB22_12
.Lnoise_BB22_56:
	add	a0, a0, a1
	add	a1, a1, a2
	lbu	a6, -32(a0)
	lbu	a7, -31(a0)
	lbu	s1, -30(a0)
	lbu	t1, -29(a0)
	lbu	s8, -32(a1)
	lbu	a2, -31(a1)
	lbu	t2, -30(a1)
	lbu	t3, -29(a1)
	lbu	t4, -28(a0)
	lbu	t6, -27(a0)
	lbu	t5, -26(a0)
	lbu	s2, -25(a0)
	lbu	s11, -28(a1)
	lbu	ra, -27(a1)
	lbu	s3, -26(a1)
	lbu	s4, -25(a1)
	lbu	s7, -24(a0)
	lbu	t0, -23(a0)
	lbu	s5, -22(a0)
	lbu	s6, -21(a0)
	lbu	s0, -24(a1)
	lbu	a4, -23(a1)
	lbu	s9, -22(a1)
	lbu	s10, -21(a1)
	xor	a3, a6, s8
	sd	a3, 384(sp)
	xor	a2, a7, a2
	sd	a2, 376(sp)
	lbu	s8, -20(a0)
	lbu	a6, -19(a0)
	lbu	a7, -18(a0)
	lbu	a5, -17(a0)
	xor	a2, s1, t2
	sd	a2, 368(sp)
	xor	a2, t1, t3
	sd	a2, 352(sp)
	xor	a2, t4, s11
	sd	a2, 344(sp)
	xor	a2, t6, ra
	sd	a2, 336(sp)
	lbu	s11, -20(a1)
	lbu	ra, -19(a1)
	lbu	a2, -18(a1)
	lbu	a3, -17(a1)
	xor	s1, t5, s3
	sd	s1, 360(sp)
	xor	t6, s2, s4
	xor	s2, s7, s0
	xor	a4, t0, a4
	sd	a4, 328(sp)
	lbu	a4, -16(a0)
	lbu	s1, -15(a0)
	lbu	s3, -14(a0)
	lbu	s4, -13(a0)
	xor	s9, s5, s9
	xor	s7, s6, s10
	xor	s8, s8, s11
	xor	s5, a6, ra
	lbu	s0, -16(a1)
	lbu	s10, -15(a1)
	lbu	s11, -14(a1)
	lbu	ra, -13(a1)
	xor	s6, a7, a2
	xor	t5, a5, a3
	xor	t4, a4, s0
	xor	s10, s1, s10
	lbu	a2, -12(a0)
	lbu	s0, -11(a0)
	lbu	s1, -10(a0)
	lbu	a3, -9(a0)
	xor	s11, s3, s11
	xor	s3, s4, ra
	lbu	a4, -12(a1)
	lbu	a5, -11(a1)
	lbu	s4, -10(a1)
	lbu	ra, -9(a1)
	xor	t2, a2, a4
	xor	t3, s0, a5
	xor	s4, s1, s4
	xor	ra, a3, ra
	lbu	s0, -8(a0)
	lbu	s1, -7(a0)
	lbu	a7, -6(a0)
	lbu	a6, -5(a0)
	lbu	a2, -8(a1)
	lbu	a3, -7(a1)
	lbu	a4, -6(a1)
	lbu	a5, -5(a1)
	xor	t0, s0, a2
	xor	t1, s1, a3
	xor	a7, a7, a4
	xor	a6, a6, a5
	lbu	s1, -4(a0)
	lbu	s0, -3(a0)
	lbu	a5, -2(a0)
	lbu	a3, -1(a0)
	lbu	a4, -4(a1)
	lbu	a0, -3(a1)
	lbu	a2, -2(a1)
	lbu	a1, -1(a1)
	xor	a4, a4, s1
	xor	a0, a0, s0
	xor	a2, a2, a5
	xor	a1, a1, a3
	ld	a3, 384(sp)
	ld	a5, 376(sp)
	or	a3, a3, a5
	ld	a5, 368(sp)
	ld	s0, 352(sp)
	or	a5, a5, s0
	ld	s0, 344(sp)
	ld	s1, 336(sp)
	or	s0, s0, s1
	or	s1, t6, s2
	or	t6, s7, s8
	or	t4, t4, s10
	or	s2, s4, ra
	or	s4, a0, a2
	or	a3, a3, a5
	ld	a2, 360(sp)
	or	a2, a2, s0
	ld	a5, 328(sp)
	or	a5, a5, s1
	or	s1, t6, s5
	or	s0, t4, s11
	or	a0, s2, t0
	or	a2, a2, a3
	or	a3, a5, s9
	or	a5, s1, s6
	or	s1, s0, s3
	or	a0, a0, t1
	or	a2, a2, a3
	or	a3, a5, t5
	or	a5, s1, t2
	or	a0, a0, a7
	or	a2, a2, a3
	or	a3, a5, t3
	or	a0, a0, a6
	or	a2, a2, a3
	or	a0, a0, a4
	or	a0, a0, a2
	or	a1, s4, a1
	j	.Lnoise_BB22_2
.Lnoise_func_end22:
	.size	noise_core_cmp_slices_groups_equal_1549cde59530a8ca, .Lnoise_func_end22-noise_core_cmp_slices_groups_equal_1549cde59530a8ca
	.cfi_endproc

	.section	".text.noise_names::pattern::Pattern::check","ax",@progbits
	.p2align	1
	.type	noise_noise_names_pattern_Pattern_check,@function
noise_noise_names_pattern_Pattern_check:
	.cfi_startproc
	addi	sp, sp, -640
	.cfi_def_cfa_offset 640
	sd	ra, 632(sp)
	sd	s0, 624(sp)
	sd	s1, 616(sp)
	sd	s2, 608(sp)
	sd	s3, 600(sp)
	sd	s4, 592(sp)
	sd	s5, 584(sp)
	sd	s6, 576(sp)
	sd	s7, 568(sp)
	.cfi_offset ra, -8
	.cfi_offset s0, -16
	.cfi_offset s1, -24
	.cfi_offset s2, -32
	.cfi_offset s3, -40
	.cfi_offset s4, -48
	.cfi_offset s5, -56
	.cfi_offset s6, -64
	.cfi_offset s7, -72
	.cfi_remember_state
	mv	s2, a1
	mv	s3, a0
	mv	a0, sp
	li	a2, 272
	call	memcpy
	sw	zero, 548(sp)
	ld	s6, 264(sp)
	ld	a5, 48(sp)
	sd	zero, 552(sp)
	sb	zero, 560(sp)
	addi	a4, sp, 40
	addi	a0, sp, 548
	addi	a1, sp, 552
	li	a2, 0
	li	a3, 0
	call	noise_noise_names_seen_Seen_walk_tokens
	lbu	a0, 548(sp)
	bnez	a0, .Lnoise_BB23_2
	ld	a5, 64(sp)
	addi	a4, sp, 56
	addi	a0, sp, 548
	addi	a1, sp, 552
	li	a2, 1
	li	a3, 0
	call	noise_noise_names_seen_Seen_walk_tokens
	lbu	a0, 548(sp)
	beqz	a0, .Lnoise_BB23_5
.Lnoise_BB23_2:
	lbu	a0, 550(sp)
	lbu	a1, 549(sp)
	lbu	a2, 551(sp)
	slli	a0, a0, 8
	or	a0, a0, a1
	slli	a1, a2, 16
.Lnoise_BB23_3:
	or	a1, a1, a0
.Lnoise_BB23_4:
	li	a3, 1
	srli	a4, a1, 8
	srli	a5, a1, 16
	addi	a0, s3, 8
	li	a2, 272
	sb	a3, 0(s3)
	sb	a1, 1(s3)
	sb	a4, 2(s3)
	sb	a5, 3(s3)
	li	a1, 0
	ld	ra, 632(sp)
	ld	s0, 624(sp)
	ld	s1, 616(sp)
	ld	s2, 608(sp)
	ld	s3, 600(sp)
	ld	s4, 592(sp)
	ld	s5, 584(sp)
	ld	s6, 576(sp)
	ld	s7, 568(sp)
	.cfi_restore ra
	.cfi_restore s0
	.cfi_restore s1
	.cfi_restore s2
	.cfi_restore s3
	.cfi_restore s4
	.cfi_restore s5
	.cfi_restore s6
	.cfi_restore s7
	addi	sp, sp, 640
	.cfi_def_cfa_offset 0
	tail	memset
.Lnoise_BB23_5:
	.cfi_restore_state
	.cfi_remember_state
	beqz	s6, .Lnoise_BB23_21
	li	s0, 0
	addi	s1, sp, 72
	li	s5, 1
	mv	s7, s6
	j	.Lnoise_BB23_8
.Lnoise_BB23_7:
	xori	s0, s0, 1
	addi	s5, s5, 1
	addi	s7, s7, -1
	addi	s1, s1, 24
	beqz	s7, .Lnoise_BB23_22
.Lnoise_BB23_8:
	ld	s4, 16(s1)
	sw	zero, 564(sp)
	addi	a0, sp, 564
	addi	a1, sp, 552
	mv	a2, s0
	mv	a3, s5
	mv	a4, s1
	mv	a5, s4
	call	noise_noise_names_seen_Seen_walk_tokens
	lbu	a0, 564(sp)
	bnez	a0, .Lnoise_BB23_30
	lbu	a0, 556(sp)
	andi	a1, s0, 1
	beqz	a1, .Lnoise_BB23_14
	lbu	a1, 557(sp)
	li	a2, 4
	beqz	a1, .Lnoise_BB23_12
	andi	a1, a0, 1
	beqz	a1, .Lnoise_BB23_31
.Lnoise_BB23_12:
	lbu	a3, 559(sp)
	lbu	a1, 558(sp)
	beqz	a3, .Lnoise_BB23_18
	andi	a3, a1, 1
	bnez	a3, .Lnoise_BB23_18
	j	.Lnoise_BB23_31
.Lnoise_BB23_14:
	lbu	a1, 558(sp)
	andi	a3, a1, 1
	li	a2, 4
	beqz	a3, .Lnoise_BB23_16
	andi	a3, a0, 1
	beqz	a3, .Lnoise_BB23_31
.Lnoise_BB23_16:
	lbu	a3, 559(sp)
	beqz	a3, .Lnoise_BB23_18
	lbu	a3, 557(sp)
	andi	a3, a3, 1
	beqz	a3, .Lnoise_BB23_31
.Lnoise_BB23_18:
	lbu	a2, 560(sp)
	andi	a2, a2, 1
	beqz	a2, .Lnoise_BB23_7
	slli	a2, s0, 57
	srli	a2, a2, 56
	addi	a3, sp, 552
	add	a2, a2, a3
	lbu	a2, 0(a2)
	bnez	a2, .Lnoise_BB23_7
	li	a2, 5
	j	.Lnoise_BB23_31
.Lnoise_BB23_21:
	lbu	a0, 556(sp)
	lbu	a1, 558(sp)
.Lnoise_BB23_22:
	addi	a2, s6, 1
	andi	a4, a1, 1
	li	a3, 4
	beqz	a4, .Lnoise_BB23_24
	andi	a4, a0, 1
	beqz	a4, .Lnoise_BB23_29
.Lnoise_BB23_24:
	lbu	a5, 559(sp)
	lbu	a4, 557(sp)
	xori	s1, a5, 1
	andi	a5, s1, 1
	bnez	a5, .Lnoise_BB23_26
	beqz	a4, .Lnoise_BB23_29
.Lnoise_BB23_26:
	lbu	a3, 560(sp)
	xori	a3, a3, 1
	andi	a5, a3, 1
	bnez	a5, .Lnoise_BB23_32
	lbu	a5, 552(sp)
	andi	a5, a5, 1
	bnez	a5, .Lnoise_BB23_32
	li	a3, 5
.Lnoise_BB23_29:
	sb	a3, 549(sp)
	sb	a2, 550(sp)
	sb	zero, 551(sp)
	zext.b	a0, a2
	slli	a0, a0, 8
	or	a1, a0, a3
	j	.Lnoise_BB23_4
.Lnoise_BB23_30:
	lbu	a0, 566(sp)
	lbu	a1, 565(sp)
	lbu	s4, 567(sp)
	slli	a0, a0, 8
	or	a0, a0, a1
	slli	a2, s4, 16
	or	a2, a2, a0
	srli	s5, a2, 8
.Lnoise_BB23_31:
	slli	s4, s4, 16
	zext.b	a0, s5
	zext.b	a1, a2
	slli	a0, a0, 8
	or	a1, s4, a1
	j	.Lnoise_BB23_3
.Lnoise_BB23_32:
	li	a5, 1
	bne	s6, a5, .Lnoise_BB23_34
.Lnoise_BB23_33:
	addi	a0, sp, 276
	li	a2, 272
	mv	a1, s2
	call	memcpy
	sb	zero, 0(s3)
	sb	zero, 1(s3)
	sb	zero, 2(s3)
	sb	zero, 3(s3)
	addi	a0, s3, 8
	addi	a1, sp, 276
	li	a2, 272
	call	memcpy
	ld	ra, 632(sp)
	ld	s0, 624(sp)
	ld	s1, 616(sp)
	ld	s2, 608(sp)
	ld	s3, 600(sp)
	ld	s4, 592(sp)
	ld	s5, 584(sp)
	ld	s6, 576(sp)
	ld	s7, 568(sp)
	.cfi_restore ra
	.cfi_restore s0
	.cfi_restore s1
	.cfi_restore s2
	.cfi_restore s3
	.cfi_restore s4
	.cfi_restore s5
	.cfi_restore s6
	.cfi_restore s7
	addi	sp, sp, 640
	.cfi_def_cfa_offset 0
	ret
.Lnoise_BB23_34:
	.cfi_restore_state
	or	a1, a1, s1
	andi	a5, a1, 1
	li	a1, 4
	beqz	a5, .Lnoise_BB23_38
	xori	a4, a4, 1
	or	a0, a0, a4
	andi	a0, a0, 1
	beqz	a0, .Lnoise_BB23_38
	lbu	a0, 554(sp)
	or	a0, a0, a3
	andi	a0, a0, 1
	bnez	a0, .Lnoise_BB23_33
	li	a1, 5
.Lnoise_BB23_38:
	zext.b	a0, a2
	lui	a2, 16
	slli	a0, a0, 8
	or	a1, a1, a2
	j	.Lnoise_BB23_3
.Lnoise_func_end23:
	.size	noise_noise_names_pattern_Pattern_check, .Lnoise_func_end23-noise_noise_names_pattern_Pattern_check
	.cfi_endproc

	.section	".text.noise_names::seen::Seen::walk_tokens","ax",@progbits
	.p2align	1
	.type	noise_noise_names_seen_Seen_walk_tokens,@function
noise_noise_names_seen_Seen_walk_tokens:
	.cfi_startproc
	beqz	a5, .Lnoise_BB24_48
	andi	a7, a2, 1
	bnez	a7, .Lnoise_BB24_3
	li	t0, 1
	j	.Lnoise_BB24_4
.Lnoise_BB24_3:
	li	t0, 3
.Lnoise_BB24_4:
	li	a6, 0
	add	t0, t0, a1
	slli	t1, a2, 57
	srli	t1, t1, 56
	add	t1, t1, a1
	j	.Lnoise_BB24_7
.Lnoise_BB24_5:
	li	t2, 1
	sb	t2, 8(a1)
.Lnoise_BB24_6:
	addi	a6, a6, 1
	addi	a5, a5, -1
	addi	a4, a4, 1
	beqz	a5, .Lnoise_BB24_48
.Lnoise_BB24_7:
	lbu	t2, 0(a4)
.Lnoise_pcrel_hi13:
	auipc	t3, %pcrel_hi(.Lnoise_JTI24_0)
	slli	t2, t2, 2
	addi	t3, t3, %pcrel_lo(.Lnoise_pcrel_hi13)
	add	t4, t3, t2
	lw	t4, 0(t4)
	add	t3, t3, t4
	jr	t3
.Lnoise_BB24_8:
	lbu	t4, 0(t1)
	slli	t3, t4, 1
	j	.Lnoise_BB24_16
.Lnoise_BB24_9:
	lbu	t3, 1(a1)
	beqz	t3, .Lnoise_BB24_49
	lbu	t4, 2(a1)
	lbu	t5, 6(a1)
	bnez	t4, .Lnoise_BB24_14
.Lnoise_BB24_11:
	li	t3, 1
	j	.Lnoise_BB24_15
.Lnoise_BB24_12:
	lbu	t3, 0(a1)
	beqz	t3, .Lnoise_BB24_49
	lbu	t4, 2(a1)
	lbu	t5, 4(a1)
	beqz	t4, .Lnoise_BB24_11
.Lnoise_BB24_14:
	neg	t3, t5
	andi	t3, t3, 3
.Lnoise_BB24_15:
	not	t4, t4
	or	t4, t4, t5
	andi	t4, t4, 1
.Lnoise_BB24_16:
	bnez	t4, .Lnoise_BB24_47
.Lnoise_pcrel_hi14:
	auipc	t3, %pcrel_hi(.Lnoise_JTI24_1)
	addi	t3, t3, %pcrel_lo(.Lnoise_pcrel_hi14)
	add	t2, t2, t3
	lw	t2, 0(t2)
	add	t2, t2, t3
	jr	t2
.Lnoise_BB24_18:
	zext.b	t2, a2
	beqz	t2, .Lnoise_BB24_43
	li	t2, 1
	sb	t2, 2(a1)
	j	.Lnoise_BB24_6
.Lnoise_BB24_20:
	lbu	t3, 0(a1)
	beqz	t3, .Lnoise_BB24_49
	lbu	t4, 3(a1)
	lbu	t5, 5(a1)
	beqz	t4, .Lnoise_BB24_11
	j	.Lnoise_BB24_14
.Lnoise_BB24_22:
	beqz	a7, .Lnoise_BB24_35
	lbu	t3, 5(a1)
	beqz	t3, .Lnoise_BB24_25
	lbu	t3, 4(a1)
	beqz	t3, .Lnoise_BB24_42
.Lnoise_BB24_25:
	lbu	t3, 7(a1)
	beqz	t3, .Lnoise_BB24_39
	lbu	t3, 6(a1)
	bnez	t3, .Lnoise_BB24_39
	j	.Lnoise_BB24_42
.Lnoise_BB24_27:
	lbu	t3, 1(a1)
	beqz	t3, .Lnoise_BB24_49
	lbu	t4, 3(a1)
	lbu	t5, 7(a1)
	beqz	t4, .Lnoise_BB24_11
	j	.Lnoise_BB24_14
.Lnoise_BB24_29:
	li	t2, 1
	sb	t2, 6(a1)
	j	.Lnoise_BB24_6
.Lnoise_BB24_30:
	li	t2, 1
	sb	t2, 4(a1)
	j	.Lnoise_BB24_6
.Lnoise_BB24_31:
	li	t2, 1
	sb	t2, 5(a1)
	j	.Lnoise_BB24_6
.Lnoise_BB24_32:
	zext.b	t2, a2
	beqz	t2, .Lnoise_BB24_44
	li	t2, 1
	sb	t2, 3(a1)
	j	.Lnoise_BB24_6
.Lnoise_BB24_34:
	li	t2, 1
	sb	t2, 7(a1)
	j	.Lnoise_BB24_6
.Lnoise_BB24_35:
	lbu	t3, 6(a1)
	beqz	t3, .Lnoise_BB24_37
	lbu	t3, 4(a1)
	beqz	t3, .Lnoise_BB24_42
.Lnoise_BB24_37:
	lbu	t3, 7(a1)
	beqz	t3, .Lnoise_BB24_39
	lbu	t3, 5(a1)
	beqz	t3, .Lnoise_BB24_42
.Lnoise_BB24_39:
	lbu	t3, 8(a1)
	beqz	t3, .Lnoise_BB24_41
	lbu	t3, 0(t1)
	beqz	t3, .Lnoise_BB24_45
.Lnoise_BB24_41:
	li	t4, 0
	li	t3, 0
	lbu	t5, 0(t0)
	beqz	t5, .Lnoise_BB24_16
	j	.Lnoise_BB24_46
.Lnoise_BB24_42:
	li	t3, 4
	li	t4, 1
	lbu	t5, 0(t0)
	beqz	t5, .Lnoise_BB24_16
	j	.Lnoise_BB24_46
.Lnoise_BB24_43:
	li	t2, 1
	sb	t2, 0(a1)
	j	.Lnoise_BB24_6
.Lnoise_BB24_44:
	li	t2, 1
	sb	t2, 1(a1)
	j	.Lnoise_BB24_6
.Lnoise_BB24_45:
	li	t3, 5
	li	t4, 1
	lbu	t5, 0(t0)
	beqz	t5, .Lnoise_BB24_16
.Lnoise_BB24_46:
	li	t3, 2
.Lnoise_BB24_47:
	li	a1, 1
	sb	a1, 0(a0)
	sb	t3, 1(a0)
	sb	a3, 2(a0)
	sb	a6, 3(a0)
	ret
.Lnoise_BB24_48:
	sb	zero, 0(a0)
	sb	zero, 1(a0)
	sb	zero, 2(a0)
	sb	zero, 3(a0)
	ret
.Lnoise_BB24_49:
	li	t3, 1
	li	a1, 1
	sb	a1, 0(a0)
	sb	t3, 1(a0)
	sb	a3, 2(a0)
	sb	a6, 3(a0)
	ret
.Lnoise_func_end24:
	.size	noise_noise_names_seen_Seen_walk_tokens, .Lnoise_func_end24-noise_noise_names_seen_Seen_walk_tokens
	.cfi_endproc
	.section	".rodata.noise_names::seen::Seen::walk_tokens","a",@progbits
	.p2align	2, 0x0
.Lnoise_JTI24_0:
	.word	.Lnoise_BB24_8-.Lnoise_JTI24_0
	.word	.Lnoise_BB24_22-.Lnoise_JTI24_0
	.word	.Lnoise_BB24_12-.Lnoise_JTI24_0
	.word	.Lnoise_BB24_20-.Lnoise_JTI24_0
	.word	.Lnoise_BB24_9-.Lnoise_JTI24_0
	.word	.Lnoise_BB24_27-.Lnoise_JTI24_0
	.word	.Lnoise_BB24_5-.Lnoise_JTI24_0
.Lnoise_JTI24_1:
	.word	.Lnoise_BB24_18-.Lnoise_JTI24_1
	.word	.Lnoise_BB24_32-.Lnoise_JTI24_1
	.word	.Lnoise_BB24_30-.Lnoise_JTI24_1
	.word	.Lnoise_BB24_31-.Lnoise_JTI24_1
	.word	.Lnoise_BB24_29-.Lnoise_JTI24_1
	.word	.Lnoise_BB24_34-.Lnoise_JTI24_1

	.section	".text.noise_names::name::ProtocolName::parse","ax",@progbits
	.p2align	1
	.type	noise_noise_names_name_ProtocolName_parse,@function
noise_noise_names_name_ProtocolName_parse:
	.cfi_startproc
	addi	sp, sp, -144
	.cfi_def_cfa_offset 144
	sd	ra, 136(sp)
	sd	s0, 128(sp)
	sd	s1, 120(sp)
	sd	s2, 112(sp)
	sd	s3, 104(sp)
	.cfi_offset ra, -8
	.cfi_offset s0, -16
	.cfi_offset s1, -24
	.cfi_offset s2, -32
	.cfi_offset s3, -40
	.cfi_remember_state
	mv	s0, a0
	sd	zero, 40(sp)
	sw	zero, 48(sp)
	sh	zero, 52(sp)
	sd	zero, 8(sp)
	sd	zero, 16(sp)
	sd	zero, 24(sp)
	sd	zero, 32(sp)
	sd	zero, 88(sp)
	sd	zero, 96(sp)
	li	a0, 256
	sd	zero, 56(sp)
	sd	zero, 64(sp)
	sd	zero, 72(sp)
	sd	zero, 80(sp)
	bltu	a2, a0, .Lnoise_BB25_2
	addi	a0, sp, 14
	li	a2, 40
	li	a1, 0
	call	memset
	li	s1, 0
	li	a0, 1
	j	.Lnoise_BB25_11
.Lnoise_BB25_2:
	li	a0, 6
	bltu	a2, a0, .Lnoise_BB25_10
	lbu	a6, 0(a1)
	lbu	a7, 1(a1)
	lbu	a4, 2(a1)
	lbu	a5, 3(a1)
	lbu	s1, 4(a1)
	lbu	a0, 5(a1)
	xori	t0, a4, 105
	xori	a5, a5, 115
	xori	s1, s1, 101
	xori	a0, a0, 95
	xori	a3, a6, 78
	xori	a4, a7, 111
	or	a0, a0, s1
	or	a5, t0, a5
	or	a0, a0, a5
	or	a3, a3, a4
	or	a0, a0, a3
	bnez	a0, .Lnoise_BB25_10
	snez	a0, a0
	addi	a1, a1, 6
	addi	a2, a2, -6
	addi	a0, a0, -1
	and	s2, a0, a1
	and	s3, a0, a2
	li	s1, 0
	beqz	a2, .Lnoise_BB25_8
.Lnoise_BB25_5:
	add	a0, a1, s1
	lbu	a0, 0(a0)
	li	a3, 95
	beq	a0, a3, .Lnoise_BB25_8
	addi	s1, s1, 1
	bne	a2, s1, .Lnoise_BB25_5
	mv	s1, s3
.Lnoise_BB25_8:
	addi	a0, sp, 56
	mv	a1, s2
	mv	a2, s1
	call	noise_noise_names_section_parse_section
	lbu	a0, 56(sp)
	beqz	a0, .Lnoise_BB25_12
	lbu	s1, 57(sp)
	addi	a0, sp, 14
	li	a2, 40
	li	a1, 0
	call	memset
	li	a0, 1
	j	.Lnoise_BB25_11
.Lnoise_BB25_10:
	addi	a0, sp, 14
	li	a2, 40
	li	a1, 0
	call	memset
	li	a0, 1
	li	s1, 1
.Lnoise_BB25_11:
	sb	a0, 0(s0)
	sb	s1, 1(s0)
	addi	a0, s0, 8
	addi	a1, sp, 14
	li	a2, 40
	call	memcpy
	ld	ra, 136(sp)
	ld	s0, 128(sp)
	ld	s1, 120(sp)
	ld	s2, 112(sp)
	ld	s3, 104(sp)
	.cfi_restore ra
	.cfi_restore s0
	.cfi_restore s1
	.cfi_restore s2
	.cfi_restore s3
	addi	sp, sp, 144
	.cfi_def_cfa_offset 0
	ret
.Lnoise_BB25_12:
	.cfi_restore_state
	sub	a0, s3, s1
	li	a1, 24
	bne	a0, a1, .Lnoise_BB25_19
	add	a0, s2, s1
	lbu	a1, 0(a0)
	li	a2, 95
	bne	a1, a2, .Lnoise_BB25_19
	lbu	a1, 1(a0)
	li	a2, 50
	bne	a1, a2, .Lnoise_BB25_19
	lbu	a2, 2(a0)
	li	a1, 53
	bne	a2, a1, .Lnoise_BB25_19
	lbu	a2, 3(a0)
	bne	a2, a1, .Lnoise_BB25_19
.Lnoise_pcrel_hi15:
	auipc	a2, %pcrel_hi(.Lnoise_static.98)
	addi	a2, a2, %pcrel_lo(.Lnoise_pcrel_hi15)
	li	a1, 24
	call	noise_core_cmp_slices_groups_equal_i8_31_core_cmp_numbers_U8PartialEq
	beqz	a0, .Lnoise_BB25_19
	addi	a1, sp, 64
	addi	a0, sp, 14
	li	a2, 40
	call	memcpy
	li	a0, 0
	li	s1, 0
	j	.Lnoise_BB25_11
.Lnoise_BB25_19:
	addi	a0, sp, 14
	li	a2, 40
	li	a1, 0
	call	memset
	li	s1, 5
	li	a0, 1
	j	.Lnoise_BB25_11
.Lnoise_func_end25:
	.size	noise_noise_names_name_ProtocolName_parse, .Lnoise_func_end25-noise_noise_names_name_ProtocolName_parse
	.cfi_endproc

	.section	".text.noise_c::from_c::restored","ax",@progbits
	.p2align	1
	.type	noise_noise_c_from_c_restored,@function
noise_noise_c_from_c_restored:
	.cfi_startproc
	addi	sp, sp, -2032
	.cfi_def_cfa_offset 2032
	sd	ra, 2024(sp)
	sd	s0, 2016(sp)
	sd	s1, 2008(sp)
	sd	s2, 2000(sp)
	sd	s3, 1992(sp)
	sd	s4, 1984(sp)
	sd	s5, 1976(sp)
	sd	s6, 1968(sp)
	sd	s7, 1960(sp)
	sd	s8, 1952(sp)
	sd	s9, 1944(sp)
	sd	s10, 1936(sp)
	sd	s11, 1928(sp)
	.cfi_offset ra, -8
	.cfi_offset s0, -16
	.cfi_offset s1, -24
	.cfi_offset s2, -32
	.cfi_offset s3, -40
	.cfi_offset s4, -48
	.cfi_offset s5, -56
	.cfi_offset s6, -64
	.cfi_offset s7, -72
	.cfi_offset s8, -80
	.cfi_offset s9, -88
	.cfi_offset s10, -96
	.cfi_offset s11, -104
	addi	sp, sp, -1584
	.cfi_def_cfa_offset 3616
	.cfi_remember_state
	sd	a2, 56(sp)
	mv	s9, a1
	mv	s4, a0
	addi	s6, sp, 2024
	addi	a0, sp, 1096
	li	a2, 272
	li	a1, 0
	call	memset
	sw	zero, 1088(sp)
	sh	zero, 1092(sp)
	sd	zero, 1056(sp)
	sd	zero, 1064(sp)
	sd	zero, 1072(sp)
	sd	zero, 1080(sp)
	sd	zero, 1024(sp)
	sd	zero, 1032(sp)
	sd	zero, 1040(sp)
	sd	zero, 1048(sp)
	addi	a0, sp, 722
	li	a2, 302
	li	a1, 0
	call	memset
	addi	a0, sp, 660
	li	a2, 62
	li	a1, 0
	call	memset
	sd	zero, 592(sp)
	sd	zero, 600(sp)
	sd	zero, 608(sp)
	sd	zero, 616(sp)
	sd	zero, 624(sp)
	sd	zero, 632(sp)
	sd	zero, 640(sp)
	sd	zero, 648(sp)
	sd	zero, 560(sp)
	sd	zero, 568(sp)
	sd	zero, 576(sp)
	sd	zero, 584(sp)
	sw	zero, 552(sp)
	sh	zero, 556(sp)
	sb	zero, 558(sp)
	addi	a0, sp, 280
	li	a2, 272
	li	a1, 0
	call	memset
	sw	zero, 272(sp)
	sh	zero, 276(sp)
	sb	zero, 278(sp)
	sd	zero, 240(sp)
	sd	zero, 248(sp)
	sd	zero, 256(sp)
	sd	zero, 264(sp)
	sd	zero, 208(sp)
	sd	zero, 216(sp)
	sd	zero, 224(sp)
	sd	zero, 232(sp)
	addi	a0, sp, 140
	li	a2, 68
	li	a1, 0
	call	memset
	sd	zero, 104(sp)
	sd	zero, 112(sp)
	sd	zero, 120(sp)
	sd	zero, 128(sp)
	sw	zero, 96(sp)
	sh	zero, 100(sp)
	sb	zero, 102(sp)
	lbu	a0, 557(s9)
	sd	a0, 40(sp)
	sd	zero, 1424(s6)
	sd	zero, 1432(s6)
	sd	zero, 1440(s6)
	sd	zero, 1448(s6)
	sd	zero, 8(s6)
	sd	zero, 16(s6)
	sd	zero, 24(s6)
	sd	zero, 32(s6)
	sd	zero, 40(s6)
	sd	zero, 48(s6)
	sd	zero, 56(s6)
	sd	zero, 64(s6)
	addi	a0, sp, 2047
	addi	a0, a0, 537
	li	a2, 68
	li	a1, 0
	call	memset
	lbu	a0, 422(s9)
	sd	a0, 80(sp)
	lbu	s3, 846(s9)
	lbu	a0, 491(s9)
	sd	zero, 1120(s6)
	sd	zero, 1128(s6)
	sd	zero, 1136(s6)
	sd	zero, 1144(s6)
	sd	a0, 32(sp)
	beqz	a0, .Lnoise_BB26_2
	lbu	t2, 516(s9)
	lbu	a1, 517(s9)
	lbu	a2, 518(s9)
	lbu	a3, 519(s9)
	lbu	a6, 520(s9)
	lbu	a7, 521(s9)
	lbu	t0, 522(s9)
	lbu	t1, 523(s9)
	lbu	t5, 508(s9)
	lbu	s0, 509(s9)
	lbu	a4, 510(s9)
	lbu	a0, 511(s9)
	lbu	t3, 512(s9)
	lbu	t4, 513(s9)
	lbu	t6, 514(s9)
	lbu	s5, 515(s9)
	slli	a1, a1, 8
	slli	a2, a2, 16
	slli	a3, a3, 24
	or	t2, a1, t2
	or	s2, a3, a2
	lbu	a1, 500(s9)
	lbu	a2, 501(s9)
	lbu	a3, 502(s9)
	lbu	a5, 503(s9)
	slli	a7, a7, 8
	slli	t0, t0, 16
	slli	t1, t1, 24
	slli	s0, s0, 8
	slli	a4, a4, 16
	slli	a0, a0, 24
	or	a6, a7, a6
	or	a7, t1, t0
	or	t0, s0, t5
	or	t1, a0, a4
	lbu	t5, 504(s9)
	lbu	s0, 505(s9)
	lbu	a0, 506(s9)
	lbu	a4, 507(s9)
	slli	t4, t4, 8
	slli	t6, t6, 16
	slli	s5, s5, 24
	slli	a2, a2, 8
	slli	a3, a3, 16
	slli	a5, a5, 24
	or	t3, t4, t3
	or	t4, s5, t6
	or	t6, a2, a1
	or	s5, a5, a3
	lbu	a2, 492(s9)
	lbu	a5, 493(s9)
	lbu	a1, 494(s9)
	lbu	a3, 495(s9)
	slli	s0, s0, 8
	slli	a0, a0, 16
	slli	a4, a4, 24
	slli	a5, a5, 8
	slli	a1, a1, 16
	slli	a3, a3, 24
	or	t5, s0, t5
	or	s7, a4, a0
	or	s8, a5, a2
	or	s10, a3, a1
	lbu	a3, 497(s9)
	lbu	a4, 496(s9)
	lbu	a5, 498(s9)
	lbu	s0, 499(s9)
	slli	a3, a3, 8
	or	s11, a3, a4
	slli	a5, a5, 16
	slli	s0, s0, 24
	or	a5, a5, s0
	or	a4, s2, t2
	or	s0, a7, a6
	or	a0, t1, t0
	or	a2, t4, t3
	or	a1, s5, t6
	or	a3, s7, t5
	or	a6, s10, s8
	or	a5, a5, s11
	slli	s0, s0, 32
	or	a4, a4, s0
	slli	a2, a2, 32
	or	a0, a0, a2
	slli	a3, a3, 32
	or	a1, a1, a3
	slli	a5, a5, 32
	or	a2, a5, a6
	sd	a2, 1120(s6)
	sd	a1, 1128(s6)
	sd	a0, 1136(s6)
	sd	a4, 1144(s6)
	li	a0, 1
	sd	a0, 72(sp)
	j	.Lnoise_BB26_3
.Lnoise_BB26_2:
	sd	zero, 72(sp)
.Lnoise_BB26_3:
	ld	a0, 1120(s6)
	ld	a1, 1128(s6)
	ld	a2, 1136(s6)
	ld	a3, 1144(s6)
	sd	a0, 1432(sp)
	sd	a1, 1440(sp)
	sd	a2, 1448(sp)
	sd	a3, 1456(sp)
	lbu	a0, 524(s9)
	sd	zero, 1120(s6)
	sd	zero, 1128(s6)
	sd	zero, 1136(s6)
	sd	zero, 1144(s6)
	sd	a0, 24(sp)
	beqz	a0, .Lnoise_BB26_5
	lbu	t2, 549(s9)
	lbu	a1, 550(s9)
	lbu	a2, 551(s9)
	lbu	a3, 552(s9)
	lbu	a6, 553(s9)
	lbu	a7, 554(s9)
	lbu	t0, 555(s9)
	lbu	t1, 556(s9)
	lbu	t5, 541(s9)
	lbu	s0, 542(s9)
	lbu	a4, 543(s9)
	lbu	a0, 544(s9)
	lbu	t3, 545(s9)
	lbu	t4, 546(s9)
	lbu	t6, 547(s9)
	lbu	s5, 548(s9)
	slli	a1, a1, 8
	slli	a2, a2, 16
	slli	a3, a3, 24
	or	t2, a1, t2
	or	s2, a3, a2
	lbu	a1, 533(s9)
	lbu	a2, 534(s9)
	lbu	a3, 535(s9)
	lbu	a5, 536(s9)
	slli	a7, a7, 8
	slli	t0, t0, 16
	slli	t1, t1, 24
	slli	s0, s0, 8
	slli	a4, a4, 16
	slli	a0, a0, 24
	or	a6, a7, a6
	or	a7, t1, t0
	or	t0, s0, t5
	or	t1, a0, a4
	lbu	t5, 537(s9)
	lbu	s0, 538(s9)
	lbu	a0, 539(s9)
	lbu	a4, 540(s9)
	slli	t4, t4, 8
	slli	t6, t6, 16
	slli	s5, s5, 24
	slli	a2, a2, 8
	slli	a3, a3, 16
	slli	a5, a5, 24
	or	t3, t4, t3
	or	t4, s5, t6
	or	t6, a2, a1
	or	s5, a5, a3
	lbu	a2, 525(s9)
	lbu	a5, 526(s9)
	lbu	a1, 527(s9)
	lbu	a3, 528(s9)
	slli	s0, s0, 8
	slli	a0, a0, 16
	slli	a4, a4, 24
	slli	a5, a5, 8
	slli	a1, a1, 16
	slli	a3, a3, 24
	or	t5, s0, t5
	or	s7, a4, a0
	or	s8, a5, a2
	or	s10, a3, a1
	lbu	a3, 530(s9)
	lbu	a4, 529(s9)
	lbu	a5, 531(s9)
	lbu	s0, 532(s9)
	slli	a3, a3, 8
	or	s11, a3, a4
	slli	a5, a5, 16
	slli	s0, s0, 24
	or	a5, a5, s0
	or	a4, s2, t2
	or	s0, a7, a6
	or	a0, t1, t0
	or	a2, t4, t3
	or	a1, s5, t6
	or	a3, s7, t5
	or	a6, s10, s8
	or	a5, a5, s11
	slli	s0, s0, 32
	or	a4, a4, s0
	slli	a2, a2, 32
	or	a0, a0, a2
	slli	a3, a3, 32
	or	a1, a1, a3
	slli	a5, a5, 32
	or	a2, a5, a6
	sd	a2, 1120(s6)
	sd	a1, 1128(s6)
	sd	a0, 1136(s6)
	sd	a4, 1144(s6)
	li	a0, 1
	sd	a0, 64(sp)
	j	.Lnoise_BB26_6
.Lnoise_BB26_5:
	sd	zero, 64(sp)
.Lnoise_BB26_6:
	ld	a0, 1120(s6)
	ld	a1, 1128(s6)
	ld	a2, 1136(s6)
	ld	a3, 1144(s6)
	lbu	a6, 423(s9)
	lbu	a4, 424(s9)
	sd	a4, 88(sp)
	sd	a0, 1736(sp)
	sd	a1, 1744(sp)
	sd	a2, 1752(sp)
	sd	a3, 1760(sp)
	lbu	a0, 1431(s9)
	sd	zero, 1120(s6)
	sd	zero, 1128(s6)
	sd	zero, 1136(s6)
	sd	zero, 1144(s6)
	sd	a0, 48(sp)
	beqz	a0, .Lnoise_BB26_8
	lbu	t3, 1456(s9)
	lbu	a1, 1457(s9)
	lbu	a2, 1458(s9)
	lbu	a3, 1459(s9)
	lbu	a7, 1460(s9)
	lbu	t0, 1461(s9)
	lbu	t1, 1462(s9)
	lbu	t2, 1463(s9)
	lbu	t6, 1448(s9)
	lbu	s0, 1449(s9)
	lbu	a4, 1450(s9)
	lbu	a0, 1451(s9)
	lbu	t4, 1452(s9)
	lbu	t5, 1453(s9)
	lbu	s5, 1454(s9)
	lbu	s8, 1455(s9)
	slli	a1, a1, 8
	slli	a2, a2, 16
	slli	a3, a3, 24
	or	t3, a1, t3
	or	s7, a3, a2
	lbu	a1, 1440(s9)
	lbu	a2, 1441(s9)
	lbu	a3, 1442(s9)
	lbu	a5, 1443(s9)
	slli	t0, t0, 8
	slli	t1, t1, 16
	slli	t2, t2, 24
	slli	s0, s0, 8
	slli	a4, a4, 16
	slli	a0, a0, 24
	or	a7, t0, a7
	or	t0, t2, t1
	or	t1, s0, t6
	or	t2, a0, a4
	lbu	t6, 1444(s9)
	lbu	s0, 1445(s9)
	lbu	a0, 1446(s9)
	lbu	a4, 1447(s9)
	slli	t5, t5, 8
	slli	s5, s5, 16
	slli	s8, s8, 24
	slli	a2, a2, 8
	slli	a3, a3, 16
	slli	a5, a5, 24
	or	t4, t5, t4
	or	t5, s8, s5
	or	s5, a2, a1
	or	s8, a5, a3
	lbu	a2, 1432(s9)
	lbu	a5, 1433(s9)
	lbu	a1, 1434(s9)
	lbu	a3, 1435(s9)
	slli	s0, s0, 8
	slli	a0, a0, 16
	slli	a4, a4, 24
	slli	a5, a5, 8
	slli	a1, a1, 16
	slli	a3, a3, 24
	or	t6, s0, t6
	or	s10, a4, a0
	or	s11, a5, a2
	or	ra, a3, a1
	lbu	a3, 1437(s9)
	lbu	a4, 1436(s9)
	lbu	a5, 1438(s9)
	lbu	s0, 1439(s9)
	slli	a3, a3, 8
	or	a3, a3, a4
	slli	a5, a5, 16
	slli	s0, s0, 24
	or	a5, a5, s0
	or	a4, s7, t3
	or	s0, t0, a7
	or	a7, t2, t1
	or	a2, t5, t4
	or	a1, s8, s5
	or	a0, s10, t6
	or	t0, ra, s11
	or	a3, a3, a5
	slli	s0, s0, 32
	or	a4, a4, s0
	slli	a2, a2, 32
	or	a2, a2, a7
	slli	a0, a0, 32
	or	a0, a0, a1
	slli	a3, a3, 32
	or	a1, a3, t0
	sd	a1, 1120(s6)
	sd	a0, 1128(s6)
	sd	a2, 1136(s6)
	sd	a4, 1144(s6)
	li	s2, 1
	j	.Lnoise_BB26_9
.Lnoise_BB26_8:
	li	s2, 0
.Lnoise_BB26_9:
	ld	t5, 1120(s6)
	ld	t6, 1128(s6)
	ld	s5, 1136(s6)
	ld	s11, 1144(s6)
	lbu	t0, 1367(s9)
	lbu	s0, 1368(s9)
	lbu	a0, 1369(s9)
	lbu	a5, 1370(s9)
	lbu	a7, 1371(s9)
	lbu	t1, 1372(s9)
	lbu	t2, 1373(s9)
	lbu	t3, 1374(s9)
	lbu	t4, 1375(s9)
	lbu	a1, 1376(s9)
	lbu	a2, 1377(s9)
	lbu	a3, 1378(s9)
	lbu	s7, 1379(s9)
	lbu	s8, 1380(s9)
	lbu	s10, 1381(s9)
	lbu	ra, 1382(s9)
	sd	t5, 1424(s6)
	sd	t6, 1432(s6)
	sd	s5, 1440(s6)
	sd	s11, 1448(s6)
	slli	s0, s0, 8
	slli	a0, a0, 16
	slli	a5, a5, 24
	or	t0, s0, t0
	or	t5, a5, a0
	lbu	s0, 1383(s9)
	lbu	a5, 1384(s9)
	lbu	a0, 1385(s9)
	lbu	a4, 1386(s9)
	slli	t1, t1, 8
	slli	t2, t2, 16
	slli	t3, t3, 24
	slli	a1, a1, 8
	slli	a2, a2, 16
	slli	a3, a3, 24
	or	a7, t1, a7
	or	t1, t3, t2
	or	t2, a1, t4
	or	t3, a3, a2
	lbu	t4, 1387(s9)
	lbu	a1, 1388(s9)
	lbu	a3, 1389(s9)
	lbu	a2, 1390(s9)
	slli	s8, s8, 8
	slli	s10, s10, 16
	slli	ra, ra, 24
	slli	a5, a5, 8
	slli	a0, a0, 16
	slli	a4, a4, 24
	or	t6, s8, s7
	or	s5, ra, s10
	or	s7, a5, s0
	or	s8, a4, a0
	lbu	a4, 1391(s9)
	lbu	s0, 1392(s9)
	lbu	a5, 1393(s9)
	lbu	a0, 1394(s9)
	slli	a1, a1, 8
	slli	a3, a3, 16
	slli	a2, a2, 24
	slli	s0, s0, 8
	slli	a5, a5, 16
	slli	a0, a0, 24
	or	t4, a1, t4
	or	s10, a2, a3
	or	s11, s0, a4
	or	ra, a0, a5
	lbu	a3, 1396(s9)
	lbu	a5, 1395(s9)
	lbu	s0, 1397(s9)
	lbu	a1, 1398(s9)
	slli	a3, a3, 8
	or	a3, a3, a5
	slli	s0, s0, 16
	slli	a1, a1, 24
	or	s0, s0, a1
	or	a5, t5, t0
	or	a2, t1, a7
	or	t0, t3, t2
	or	a0, s5, t6
	or	a7, s8, s7
	or	a4, s10, t4
	or	t1, ra, s11
	addi	a1, s9, 1399
	snez	s1, a6
	or	a3, a3, s0
	addi	s10, s9, 847
	slli	a2, a2, 32
	or	a2, a2, a5
	addi	s7, s9, 458
	slli	a0, a0, 32
	or	a0, a0, t0
	addi	s8, s9, 425
	slli	a4, a4, 32
	or	a4, a4, a7
	ld	a5, 80(sp)
	snez	s5, a5
	slli	a3, a3, 32
	or	a3, a3, t1
	ld	s11, 1464(s9)
	sd	a2, 8(s6)
	sd	a0, 16(s6)
	sd	a4, 24(s6)
	sd	a3, 32(s6)
	addi	a0, sp, 2047
	addi	a0, a0, 17
	li	a2, 32
	call	memcpy
	addi	a0, sp, 2047
	addi	a0, a0, 541
	addi	a1, sp, 2032
	li	a2, 64
	call	memcpy
	addi	a0, sp, 280
	li	a2, 272
	ld	s0, 56(sp)
	mv	a1, s0
	call	memcpy
	sw	zero, 272(sp)
	sh	zero, 276(sp)
	sb	zero, 278(sp)
	ld	a0, 1432(sp)
	ld	a1, 1440(sp)
	ld	a2, 1448(sp)
	ld	a3, 1456(sp)
	sd	a0, 240(sp)
	sd	a1, 248(sp)
	sd	a2, 256(sp)
	sd	a3, 264(sp)
	ld	a0, 1736(sp)
	ld	a1, 1744(sp)
	ld	a2, 1752(sp)
	ld	a3, 1760(sp)
	sd	a0, 208(sp)
	sd	a1, 216(sp)
	sd	a2, 224(sp)
	sd	a3, 232(sp)
	addi	a0, sp, 140
	addi	a1, sp, 2047
	addi	a1, a1, 537
	li	a2, 68
	call	memcpy
	ld	a0, 1424(s6)
	ld	a1, 1432(s6)
	ld	a2, 1440(s6)
	ld	a3, 1448(s6)
	sd	a0, 104(sp)
	sd	a1, 112(sp)
	sd	a2, 120(sp)
	sd	a3, 128(sp)
	sw	zero, 96(sp)
	sh	zero, 100(sp)
	sb	zero, 102(sp)
	addi	a0, sp, 1736
	li	a2, 296
	li	a1, 0
	call	memset
	addi	a0, sp, 1432
	li	a2, 302
	li	a1, 0
	call	memset
	addi	a0, sp, 1370
	li	a2, 62
	li	a1, 0
	call	memset
	addi	a0, sp, 2032
	li	a2, 272
	mv	a1, s0
	call	memcpy
	sb	s5, 280(s6)
	sb	zero, 281(s6)
	sb	zero, 282(s6)
	sb	zero, 283(s6)
	sb	zero, 284(s6)
	sb	zero, 285(s6)
	sb	zero, 286(s6)
	sb	zero, 287(s6)
	sd	s8, 288(s6)
	sd	s7, 296(s6)
	sd	s10, 304(s6)
	sd	s3, 56(sp)
	sd	s3, 312(s6)
	ld	a0, 72(sp)
	sb	a0, 320(s6)
	addi	a0, sp, 2047
	addi	a0, a0, 298
	addi	a1, sp, 240
	li	a2, 32
	call	memcpy
	ld	a0, 64(sp)
	sb	a0, 353(s6)
	addi	a0, sp, 2047
	addi	a0, a0, 331
	addi	a1, sp, 208
	li	a2, 32
	call	memcpy
	ld	s0, 88(sp)
	sb	s0, 386(s6)
	sd	s1, 16(sp)
	sb	s1, 387(s6)
	addi	a0, sp, 2047
	addi	a0, a0, 365
	addi	a1, sp, 140
	li	a2, 68
	call	memcpy
	sb	s2, 456(s6)
	addi	a0, sp, 2047
	addi	a0, a0, 434
	addi	a1, sp, 104
	li	a2, 32
	call	memcpy
	sb	zero, 489(s6)
	sb	zero, 490(s6)
	sb	zero, 491(s6)
	sb	zero, 492(s6)
	ld	a6, 272(s6)
	sb	zero, 493(s6)
	sb	zero, 494(s6)
	sb	zero, 495(s6)
	sd	s11, 496(s6)
	bltu	a6, s0, .Lnoise_BB26_131
	mv	t1, s5
	mv	s5, s2
	mv	s2, s0
	li	s3, 0
	sub	a1, a6, s0
	beqz	a1, .Lnoise_BB26_18
	slli	a2, s2, 3
	slli	a3, s2, 4
	add	a2, a2, a3
	addi	a3, sp, 2032
	add	a2, a2, a3
	addi	s0, a2, 72
	j	.Lnoise_BB26_13
.Lnoise_BB26_12:
	addi	s0, s0, 24
	addi	a1, a1, -1
	add	s3, s3, a3
	beqz	a1, .Lnoise_BB26_18
.Lnoise_BB26_13:
	li	a3, 0
	ld	a4, 16(s0)
	mv	a2, s0
.Lnoise_BB26_14:
	mv	a5, a2
.Lnoise_BB26_15:
	beqz	a4, .Lnoise_BB26_12
	lbu	a0, 0(a5)
	addi	a2, a5, 1
	li	s1, 6
	addi	a4, a4, -1
	mv	a5, a2
	bne	a0, s1, .Lnoise_BB26_15
	addi	a3, a3, 1
	j	.Lnoise_BB26_14
.Lnoise_BB26_18:
	ld	a0, 40(sp)
	slli	t3, a0, 5
	addi	t5, sp, 2047
	addi	t5, t5, 41
	addi	ra, sp, 2047
	addi	ra, ra, 25
	mv	a2, t5
	ld	a0, 80(sp)
	bnez	a0, .Lnoise_BB26_20
	mv	a2, ra
.Lnoise_BB26_20:
	ld	t6, 72(s6)
	ld	t0, 56(s6)
	sub	a1, s9, t3
	mv	a3, t6
	ld	a0, 80(sp)
	bnez	a0, .Lnoise_BB26_22
	mv	a3, t0
.Lnoise_BB26_22:
	addi	t4, a1, 846
	ld	a0, 48(sp)
	snez	t2, a0
	ld	a0, 80(sp)
	seqz	a7, a0
	mv	a4, a2
	mv	a1, a3
.Lnoise_BB26_23:
	beqz	a1, .Lnoise_BB26_25
	lbu	a0, 0(a4)
	addi	a4, a4, 1
	addi	a1, a1, -1
	bnez	a0, .Lnoise_BB26_23
	j	.Lnoise_BB26_32
.Lnoise_BB26_25:
	beqz	a6, .Lnoise_BB26_33
	li	s1, 0
	addi	s0, sp, 2047
	addi	s0, s0, 57
	mv	a5, a6
	j	.Lnoise_BB26_28
.Lnoise_BB26_27:
	addi	s0, s0, 24
	addi	a5, a5, -1
	xori	s1, s1, 1
	beqz	a5, .Lnoise_BB26_33
.Lnoise_BB26_28:
	zext.b	a0, s1
	bne	a0, t1, .Lnoise_BB26_27
	ld	a1, 16(s0)
	mv	a4, s0
.Lnoise_BB26_30:
	beqz	a1, .Lnoise_BB26_27
	lbu	a0, 0(a4)
	addi	a4, a4, 1
	addi	a1, a1, -1
	bnez	a0, .Lnoise_BB26_30
.Lnoise_BB26_32:
	lbu	a0, 0(s8)
	beqz	a0, .Lnoise_BB26_131
.Lnoise_BB26_33:
	beqz	a3, .Lnoise_BB26_35
	lbu	a0, 0(a2)
	addi	a2, a2, 1
	li	a1, 1
	addi	a3, a3, -1
	bne	a0, a1, .Lnoise_BB26_33
	j	.Lnoise_BB26_42
.Lnoise_BB26_35:
	beqz	a6, .Lnoise_BB26_43
	li	a2, 0
	addi	a3, sp, 2047
	addi	a3, a3, 57
	mv	a4, a6
	j	.Lnoise_BB26_38
.Lnoise_BB26_37:
	addi	a3, a3, 24
	addi	a4, a4, -1
	xori	a2, a2, 1
	beqz	a4, .Lnoise_BB26_43
.Lnoise_BB26_38:
	zext.b	a0, a2
	bne	a0, t1, .Lnoise_BB26_37
	ld	a5, 16(a3)
	mv	a1, a3
.Lnoise_BB26_40:
	beqz	a5, .Lnoise_BB26_37
	lbu	a0, 0(a1)
	addi	a1, a1, 1
	li	s1, 1
	addi	a5, a5, -1
	bne	a0, s1, .Lnoise_BB26_40
.Lnoise_BB26_42:
	lbu	a0, 0(s7)
	beqz	a0, .Lnoise_BB26_131
.Lnoise_BB26_43:
	mv	a3, ra
	mv	a2, t0
	ld	a0, 80(sp)
	bnez	a0, .Lnoise_BB26_45
	mv	a3, t5
	mv	a2, t6
.Lnoise_BB26_45:
	mv	a4, a3
	mv	a1, a2
.Lnoise_BB26_46:
	beqz	a1, .Lnoise_BB26_48
	lbu	a0, 0(a4)
	addi	a4, a4, 1
	addi	a1, a1, -1
	bnez	a0, .Lnoise_BB26_46
	j	.Lnoise_BB26_55
.Lnoise_BB26_48:
	beqz	s2, .Lnoise_BB26_72
	li	s1, 0
	addi	s0, sp, 2047
	addi	s0, s0, 57
	mv	a5, s2
	j	.Lnoise_BB26_51
.Lnoise_BB26_50:
	addi	s0, s0, 24
	addi	a5, a5, -1
	xori	s1, s1, 1
	beqz	a5, .Lnoise_BB26_72
.Lnoise_BB26_51:
	zext.b	a0, s1
	bne	a0, a7, .Lnoise_BB26_50
	ld	a1, 16(s0)
	mv	a4, s0
.Lnoise_BB26_53:
	beqz	a1, .Lnoise_BB26_50
	lbu	a0, 0(a4)
	addi	a4, a4, 1
	addi	a1, a1, -1
	bnez	a0, .Lnoise_BB26_53
.Lnoise_BB26_55:
	ld	a0, 32(sp)
	beqz	a0, .Lnoise_BB26_131
.Lnoise_BB26_56:
	beqz	a2, .Lnoise_BB26_58
	lbu	a0, 0(a3)
	addi	a3, a3, 1
	li	a1, 1
	addi	a2, a2, -1
	bne	a0, a1, .Lnoise_BB26_56
	j	.Lnoise_BB26_65
.Lnoise_BB26_58:
	beqz	s2, .Lnoise_BB26_85
	li	a2, 0
	addi	a3, sp, 2047
	addi	a3, a3, 57
	mv	a4, s2
	j	.Lnoise_BB26_61
.Lnoise_BB26_60:
	addi	a3, a3, 24
	addi	a4, a4, -1
	xori	a2, a2, 1
	beqz	a4, .Lnoise_BB26_85
.Lnoise_BB26_61:
	zext.b	a0, a2
	bne	a0, a7, .Lnoise_BB26_60
	ld	a5, 16(a3)
	mv	a1, a3
.Lnoise_BB26_63:
	beqz	a5, .Lnoise_BB26_60
	lbu	a0, 0(a1)
	addi	a1, a1, 1
	li	s1, 1
	addi	a5, a5, -1
	bne	a0, s1, .Lnoise_BB26_63
.Lnoise_BB26_65:
	ld	a0, 24(sp)
	beqz	a0, .Lnoise_BB26_131
.Lnoise_BB26_66:
	sd	t2, 32(sp)
	addi	s9, sp, 2047
	addi	s9, s9, 57
	beqz	a6, .Lnoise_BB26_74
	li	a2, 0
	mv	a3, s9
	j	.Lnoise_BB26_69
.Lnoise_BB26_68:
	addi	a2, a2, 1
	addi	a3, a3, 24
	beq	a2, a6, .Lnoise_BB26_74
.Lnoise_BB26_69:
	slli	a0, a2, 3
	slli	a1, a2, 4
	add	a0, a0, a1
	add	a0, a0, s9
	ld	a1, 16(a0)
	mv	a4, a3
	beqz	a1, .Lnoise_BB26_68
.Lnoise_BB26_70:
	lbu	a0, 0(a4)
	li	a5, 6
	beq	a0, a5, .Lnoise_BB26_73
	addi	a1, a1, -1
	addi	a4, a4, 1
	bnez	a1, .Lnoise_BB26_70
	j	.Lnoise_BB26_68
.Lnoise_BB26_72:
	ld	a0, 32(sp)
	bnez	a0, .Lnoise_BB26_131
	j	.Lnoise_BB26_56
.Lnoise_BB26_73:
	li	a4, 1
	j	.Lnoise_BB26_75
.Lnoise_BB26_74:
	li	a4, 0
.Lnoise_BB26_75:
	sd	t4, 8(sp)
	sd	t3, 80(sp)
	sd	t1, 24(sp)
	li	a7, 0
	li	t1, 0
	li	t2, 0
	li	t3, 0
	li	t4, 0
	beqz	t0, .Lnoise_BB26_86
	li	a2, 0
	j	.Lnoise_BB26_80
.Lnoise_BB26_77:
	li	t2, 1
.Lnoise_BB26_78:
	mv	a3, a2
.Lnoise_BB26_79:
	addi	t0, t0, -1
	addi	ra, ra, 1
	mv	a2, a3
	beqz	t0, .Lnoise_BB26_87
.Lnoise_BB26_80:
	lbu	a0, 0(ra)
.Lnoise_pcrel_hi16:
	auipc	a1, %pcrel_hi(.Lnoise_JTI26_0)
	slli	a0, a0, 2
	addi	a1, a1, %pcrel_lo(.Lnoise_pcrel_hi16)
	add	a0, a0, a1
	lw	a0, 0(a0)
	add	a0, a0, a1
	li	a3, 1
	jr	a0
.Lnoise_BB26_81:
	li	a7, 1
	j	.Lnoise_BB26_78
.Lnoise_BB26_82:
	li	t1, 1
	j	.Lnoise_BB26_78
.Lnoise_BB26_83:
	li	t3, 1
	j	.Lnoise_BB26_78
.Lnoise_BB26_84:
	li	t4, 1
	j	.Lnoise_BB26_78
.Lnoise_BB26_85:
	ld	a0, 24(sp)
	bnez	a0, .Lnoise_BB26_131
	j	.Lnoise_BB26_66
.Lnoise_BB26_86:
	li	a3, 0
.Lnoise_BB26_87:
	beqz	t6, .Lnoise_BB26_97
	li	a2, 0
	j	.Lnoise_BB26_92
.Lnoise_BB26_89:
	li	t3, 1
.Lnoise_BB26_90:
	mv	a1, a2
.Lnoise_BB26_91:
	addi	t6, t6, -1
	addi	t5, t5, 1
	mv	a2, a1
	beqz	t6, .Lnoise_BB26_98
.Lnoise_BB26_92:
	lbu	a0, 0(t5)
.Lnoise_pcrel_hi17:
	auipc	a1, %pcrel_hi(.Lnoise_JTI26_1)
	slli	a0, a0, 2
	addi	a1, a1, %pcrel_lo(.Lnoise_pcrel_hi17)
	add	a0, a0, a1
	lw	a0, 0(a0)
	add	a0, a0, a1
	li	a1, 1
	jr	a0
.Lnoise_BB26_93:
	li	t1, 1
	j	.Lnoise_BB26_90
.Lnoise_BB26_94:
	li	t2, 1
	j	.Lnoise_BB26_90
.Lnoise_BB26_95:
	li	t4, 1
	j	.Lnoise_BB26_90
.Lnoise_BB26_96:
	li	a3, 1
	j	.Lnoise_BB26_90
.Lnoise_BB26_97:
	li	a1, 0
.Lnoise_BB26_98:
	beqz	a6, .Lnoise_BB26_107
	mv	t0, a4
	li	a2, 0
	mv	a5, s9
	j	.Lnoise_BB26_101
.Lnoise_BB26_100:
	addi	a2, a2, 1
	addi	a5, a5, 24
	beq	a2, a6, .Lnoise_BB26_143
.Lnoise_BB26_101:
	slli	a0, a2, 3
	slli	a4, a2, 4
	add	a0, a0, a4
	add	a0, a0, s9
	ld	s1, 16(a0)
	mv	a4, a5
	beqz	s1, .Lnoise_BB26_100
.Lnoise_BB26_102:
	lbu	a0, 0(a4)
	li	s0, 6
	beq	a0, s0, .Lnoise_BB26_104
	addi	s1, s1, -1
	addi	a4, a4, 1
	bnez	s1, .Lnoise_BB26_102
	j	.Lnoise_BB26_100
.Lnoise_BB26_104:
	li	s1, 1
.Lnoise_BB26_105:
	mv	a4, t0
	or	a0, t1, t2
	or	a2, t3, t4
	or	a0, a0, a2
	andi	a0, a0, 1
	beqz	a0, .Lnoise_BB26_108
.Lnoise_BB26_106:
	li	s1, 1
	j	.Lnoise_BB26_111
.Lnoise_BB26_107:
	li	s1, 0
	or	a0, t1, t2
	or	a2, t3, t4
	or	a0, a0, a2
	andi	a0, a0, 1
	bnez	a0, .Lnoise_BB26_106
.Lnoise_BB26_108:
	not	a0, s1
	or	a0, a0, a3
	andi	a0, a0, 1
	bnez	a0, .Lnoise_BB26_110
	or	s1, a7, a1
	j	.Lnoise_BB26_111
.Lnoise_BB26_110:
	or	s1, s1, a3
.Lnoise_BB26_111:
	beqz	s2, .Lnoise_BB26_127
	andi	s1, s1, 1
	li	a2, 0
	mv	a3, s2
	bnez	a4, .Lnoise_BB26_114
	j	.Lnoise_BB26_120
.Lnoise_BB26_113:
	addi	s9, s9, 24
	addi	a3, a3, -1
	zext.b	a0, s1
	add	a2, a2, a0
	beqz	a3, .Lnoise_BB26_128
.Lnoise_BB26_114:
	ld	a4, 16(s9)
	beqz	a4, .Lnoise_BB26_113
	mv	a5, s9
	mv	a1, s1
	j	.Lnoise_BB26_117
.Lnoise_BB26_116:
	addi	a5, a5, 1
	addi	a4, a4, -1
	addi	s0, s0, -1
	zext.b	a0, a1
	snez	a1, s0
	add	a0, a0, a2
	addi	a1, a1, -1
	and	a2, a1, a0
	mv	a1, s1
	beqz	a4, .Lnoise_BB26_113
.Lnoise_BB26_117:
	lbu	s0, 0(a5)
	li	a0, 1
	beq	s0, a0, .Lnoise_BB26_116
	li	s1, 1
	j	.Lnoise_BB26_116
.Lnoise_BB26_119:
	addi	s9, s9, 24
	addi	a3, a3, -1
	zext.b	a0, s1
	add	a2, a2, a0
	beqz	a3, .Lnoise_BB26_128
.Lnoise_BB26_120:
	ld	a5, 16(s9)
	beqz	a5, .Lnoise_BB26_119
	mv	a4, s9
	j	.Lnoise_BB26_124
.Lnoise_BB26_122:
	li	a2, 0
	li	s1, 1
.Lnoise_BB26_123:
	addi	a5, a5, -1
	addi	a4, a4, 1
	beqz	a5, .Lnoise_BB26_119
.Lnoise_BB26_124:
	lbu	a1, 0(a4)
	addi	a0, a1, -2
	li	s0, 5
	bltu	a0, s0, .Lnoise_BB26_122
	beqz	a1, .Lnoise_BB26_123
	zext.b	a0, s1
	add	a2, a2, a0
	j	.Lnoise_BB26_123
.Lnoise_BB26_127:
	li	a2, 0
.Lnoise_BB26_128:
	ld	a0, 48(sp)
	seqz	a0, a0
	andi	s1, s1, 1
	ld	s9, 32(sp)
	beq	a0, s1, .Lnoise_BB26_131
	bne	s11, a2, .Lnoise_BB26_131
	ld	s0, 40(sp)
	bgeu	s3, s0, .Lnoise_BB26_133
.Lnoise_BB26_131:
	addi	a0, sp, 1096
	li	a2, 272
	li	a1, 0
	call	memset
	sw	zero, 1088(sp)
	sh	zero, 1092(sp)
	sd	zero, 1056(sp)
	sd	zero, 1064(sp)
	sd	zero, 1072(sp)
	sd	zero, 1080(sp)
	sd	zero, 1024(sp)
	sd	zero, 1032(sp)
	sd	zero, 1040(sp)
	sd	zero, 1048(sp)
	addi	a0, sp, 722
	li	a2, 302
	li	a1, 0
	call	memset
	addi	a0, sp, 660
	li	a2, 62
	li	a1, 0
	call	memset
	li	s6, 0
	li	s10, 0
	li	s7, 0
	li	s8, 0
	li	a0, 0
	li	s3, 0
	sd	zero, 80(sp)
	li	s0, 0
	li	s5, 0
	sd	zero, 88(sp)
	li	s9, 0
	li	s2, 0
	li	s11, 0
	sd	zero, 592(sp)
	sd	zero, 600(sp)
	sd	zero, 608(sp)
	sd	zero, 616(sp)
	sd	zero, 624(sp)
	sd	zero, 632(sp)
	sd	zero, 640(sp)
	sd	zero, 648(sp)
	sd	zero, 560(sp)
	sd	zero, 568(sp)
	sd	zero, 576(sp)
	sd	zero, 584(sp)
	sw	zero, 552(sp)
	sh	zero, 556(sp)
	sb	zero, 558(sp)
.Lnoise_BB26_132:
	sb	zero, 4(s4)
	sb	zero, 5(s4)
	sb	zero, 6(s4)
	sb	zero, 7(s4)
	sb	a0, 0(s4)
	sb	zero, 1(s4)
	sb	zero, 2(s4)
	sb	zero, 3(s4)
	addi	a0, s4, 8
	addi	a1, sp, 1096
	li	a2, 272
	call	memcpy
	srli	a6, s8, 56
	srli	t0, s8, 48
	srli	t5, s8, 40
	srli	a3, s8, 32
	srli	t1, s8, 24
	srli	t4, s8, 16
	srli	a4, s8, 8
	srli	t2, s7, 56
	srli	t6, s7, 48
	srli	a5, s7, 40
	srli	s1, s7, 32
	srli	a2, s7, 24
	srli	a0, s7, 16
	srli	a1, s7, 8
	srli	a7, s10, 56
	srli	t3, s10, 48
	sb	s0, 320(s4)
	srli	s0, s10, 40
	sb	a3, 284(s4)
	sb	t5, 285(s4)
	sb	t0, 286(s4)
	sb	a6, 287(s4)
	srli	a3, s10, 32
	sb	s8, 280(s4)
	sb	a4, 281(s4)
	sb	t4, 282(s4)
	sb	t1, 283(s4)
	srli	a4, s10, 24
	sb	s1, 292(s4)
	sb	a5, 293(s4)
	sb	t6, 294(s4)
	sb	t2, 295(s4)
	srli	a5, s10, 16
	sb	s7, 288(s4)
	sb	a1, 289(s4)
	sb	a0, 290(s4)
	sb	a2, 291(s4)
	srli	a0, s10, 8
	sb	zero, 308(s4)
	sb	zero, 309(s4)
	sb	zero, 310(s4)
	sb	zero, 311(s4)
	sb	s6, 304(s4)
	sb	zero, 305(s4)
	sb	zero, 306(s4)
	sb	zero, 307(s4)
	sb	a3, 300(s4)
	sb	s0, 301(s4)
	sb	t3, 302(s4)
	sb	a7, 303(s4)
	lbu	a1, 1088(sp)
	lbu	a2, 1089(sp)
	lbu	a3, 1090(sp)
	lbu	s1, 1091(sp)
	sb	s10, 296(s4)
	sb	a0, 297(s4)
	sb	a5, 298(s4)
	sb	a4, 299(s4)
	lbu	a0, 1092(sp)
	lbu	a4, 1093(sp)
	sb	s3, 312(s4)
	ld	a5, 80(sp)
	sb	a5, 313(s4)
	sb	a1, 314(s4)
	sb	a2, 315(s4)
	sb	a3, 316(s4)
	sb	s1, 317(s4)
	sb	a0, 318(s4)
	sb	a4, 319(s4)
	addi	a0, s4, 321
	addi	a1, sp, 1056
	li	a2, 32
	call	memcpy
	sb	s5, 353(s4)
	addi	a0, s4, 354
	addi	a1, sp, 1024
	li	a2, 32
	call	memcpy
	addi	a0, s4, 386
	addi	a1, sp, 722
	li	a2, 302
	call	memcpy
	sb	zero, 692(s4)
	sb	zero, 693(s4)
	sb	zero, 694(s4)
	sb	zero, 695(s4)
	sb	zero, 688(s4)
	sb	zero, 689(s4)
	sb	zero, 690(s4)
	sb	zero, 691(s4)
	ld	a0, 88(sp)
	sb	a0, 696(s4)
	sb	s9, 697(s4)
	addi	a0, s4, 698
	addi	a1, sp, 660
	li	a2, 62
	call	memcpy
	addi	a0, s4, 760
	addi	a1, sp, 592
	li	a2, 64
	call	memcpy
	sb	s2, 824(s4)
	addi	a0, s4, 825
	addi	a1, sp, 560
	li	a2, 32
	call	memcpy
	lbu	a6, 552(sp)
	lbu	a7, 553(sp)
	lbu	a2, 554(sp)
	lbu	a3, 555(sp)
	srli	a4, s11, 56
	srli	a5, s11, 48
	srli	s1, s11, 40
	srli	s0, s11, 32
	srli	a0, s11, 24
	srli	a1, s11, 16
	sb	s1, 869(s4)
	sb	a5, 870(s4)
	sb	a4, 871(s4)
	srli	a4, s11, 8
	sb	a4, 865(s4)
	sb	a1, 866(s4)
	sb	a0, 867(s4)
	sb	s0, 868(s4)
	lbu	a0, 556(sp)
	lbu	a1, 557(sp)
	lbu	a4, 558(sp)
	sb	a6, 857(s4)
	sb	a7, 858(s4)
	sb	a2, 859(s4)
	sb	a3, 860(s4)
	sb	a0, 861(s4)
	sb	a1, 862(s4)
	sb	a4, 863(s4)
	sb	s11, 864(s4)
	addi	sp, sp, 1584
	.cfi_def_cfa_offset 2032
	ld	ra, 2024(sp)
	ld	s0, 2016(sp)
	ld	s1, 2008(sp)
	ld	s2, 2000(sp)
	ld	s3, 1992(sp)
	ld	s4, 1984(sp)
	ld	s5, 1976(sp)
	ld	s6, 1968(sp)
	ld	s7, 1960(sp)
	ld	s8, 1952(sp)
	ld	s9, 1944(sp)
	ld	s10, 1936(sp)
	ld	s11, 1928(sp)
	.cfi_restore ra
	.cfi_restore s0
	.cfi_restore s1
	.cfi_restore s2
	.cfi_restore s3
	.cfi_restore s4
	.cfi_restore s5
	.cfi_restore s6
	.cfi_restore s7
	.cfi_restore s8
	.cfi_restore s9
	.cfi_restore s10
	.cfi_restore s11
	addi	sp, sp, 2032
	.cfi_def_cfa_offset 0
	ret
.Lnoise_BB26_133:
	.cfi_restore_state
	addi	a0, sp, 1736
	li	a2, 288
	li	a1, 0
	call	memset
	li	a0, 9
	bltu	a0, s0, .Lnoise_BB26_144
	addi	a0, sp, 1736
	ld	a1, 8(sp)
	ld	a2, 80(sp)
	call	memcpy
	sd	s0, 0(s6)
	sw	zero, 1056(s6)
	sh	zero, 1060(s6)
	sw	zero, 1120(s6)
	sh	zero, 1124(s6)
	sd	zero, 504(s6)
	sd	zero, 512(s6)
	sd	zero, 520(s6)
	sd	zero, 528(s6)
	sd	zero, 536(s6)
	sd	zero, 544(s6)
	sd	zero, 552(s6)
	addi	a0, sp, 2047
	addi	a0, a0, 537
	addi	a1, sp, 280
	li	a2, 272
	call	memcpy
	lbu	a0, 272(sp)
	lbu	a1, 273(sp)
	lbu	a2, 274(sp)
	lbu	a3, 275(sp)
	ld	a4, 24(sp)
	sb	a4, 832(s6)
	sb	a0, 833(s6)
	sb	a1, 834(s6)
	sb	a2, 835(s6)
	lbu	a0, 276(sp)
	lbu	a1, 277(sp)
	lbu	a2, 278(sp)
	sd	s8, 840(s6)
	sd	s7, 848(s6)
	sd	s10, 856(s6)
	ld	a4, 56(sp)
	sd	a4, 864(s6)
	ld	a4, 72(sp)
	sb	a4, 872(s6)
	sb	a3, 836(s6)
	sb	a0, 837(s6)
	sb	a1, 838(s6)
	sb	a2, 839(s6)
	addi	a0, sp, 2047
	addi	a0, a0, 850
	addi	a1, sp, 240
	li	a2, 32
	call	memcpy
	ld	a0, 64(sp)
	sb	a0, 905(s6)
	addi	a0, sp, 2047
	addi	a0, a0, 883
	addi	a1, sp, 208
	li	a2, 32
	call	memcpy
	sb	s2, 938(s6)
	ld	a0, 16(sp)
	sb	a0, 939(s6)
	addi	a0, sp, 2047
	addi	a0, a0, 917
	addi	a1, sp, 140
	li	a2, 68
	call	memcpy
	sb	s5, 1008(s6)
	addi	a0, sp, 2047
	addi	a0, a0, 986
	addi	a1, sp, 104
	li	a2, 32
	call	memcpy
	lbu	a0, 96(sp)
	lbu	a1, 97(sp)
	lbu	a2, 98(sp)
	lbu	a3, 99(sp)
	lbu	a4, 100(sp)
	lbu	a5, 101(sp)
	lbu	s1, 102(sp)
	sb	a0, 1041(s6)
	sb	a1, 1042(s6)
	sb	a2, 1043(s6)
	sb	a3, 1044(s6)
	ld	a0, 824(s6)
	sb	a4, 1045(s6)
	sb	a5, 1046(s6)
	sb	s1, 1047(s6)
	sd	s11, 1048(s6)
	beqz	a0, .Lnoise_BB26_141
	li	a1, 0
	addi	a2, sp, 2047
	addi	a2, a2, 609
	mv	a3, a2
	j	.Lnoise_BB26_137
.Lnoise_BB26_136:
	addi	a1, a1, 1
	addi	a3, a3, 24
	beq	a1, a0, .Lnoise_BB26_141
.Lnoise_BB26_137:
	slli	a4, a1, 3
	slli	a5, a1, 4
	add	a4, a4, a5
	add	a4, a4, a2
	ld	a4, 16(a4)
	mv	a5, a3
	beqz	a4, .Lnoise_BB26_136
.Lnoise_BB26_138:
	lbu	s1, 0(a5)
	li	s0, 6
	beq	s1, s0, .Lnoise_BB26_140
	addi	a4, a4, -1
	addi	a5, a5, 1
	bnez	a4, .Lnoise_BB26_138
	j	.Lnoise_BB26_136
.Lnoise_BB26_140:
	mv	s2, s5
	li	a2, 1
	j	.Lnoise_BB26_142
.Lnoise_BB26_141:
	mv	s2, s5
	li	a2, 0
.Lnoise_BB26_142:
	addi	a0, sp, 2047
	addi	a0, a0, 481
	addi	a1, sp, 2047
	addi	a1, a1, 537
	sd	a2, 80(sp)
	mv	a3, s9
	ld	a4, 88(sp)
	call	noise_noise_handshake_layout_lay_next
	lwu	a0, 160(sp)
	lw	a1, 164(sp)
	lwu	a2, 168(sp)
	lw	a3, 172(sp)
	lw	a4, 176(sp)
	lw	a5, 180(sp)
	lw	s1, 184(sp)
	lw	s0, 188(sp)
	sw	a4, 1456(s6)
	sw	a5, 1460(s6)
	sw	s1, 1464(s6)
	sw	s0, 1468(s6)
	lw	a4, 192(sp)
	lw	a5, 196(sp)
	lw	s1, 200(sp)
	lw	s0, 204(sp)
	sw	a4, 1472(s6)
	sw	a5, 1476(s6)
	sw	s1, 1480(s6)
	sw	s0, 1484(s6)
	lwu	a4, 144(sp)
	lw	a5, 148(sp)
	lwu	s1, 152(sp)
	lw	s0, 156(sp)
	slli	a3, a3, 32
	or	a2, a2, a3
	slli	a1, a1, 32
	or	a0, a0, a1
	slli	s0, s0, 32
	or	s0, s0, s1
	slli	a5, a5, 32
	or	a4, a4, a5
	sd	a4, 1424(s6)
	sd	s0, 1432(s6)
	sd	a0, 1440(s6)
	sd	a2, 1448(s6)
	addi	a0, sp, 2047
	addi	a0, a0, 1103
	addi	a1, sp, 1736
	li	a2, 296
	call	memcpy
	addi	a0, sp, 2047
	addi	a0, a0, 1039
	addi	a1, sp, 2047
	addi	a1, a1, 481
	li	a2, 56
	call	memcpy
	addi	a0, sp, 1432
	addi	a1, sp, 2047
	addi	a1, a1, 1097
	li	a2, 302
	call	memcpy
	addi	a0, sp, 1370
	addi	a1, sp, 2047
	addi	a1, a1, 1033
	li	a2, 62
	call	memcpy
	addi	a0, sp, 1096
	addi	a1, sp, 280
	li	a2, 272
	call	memcpy
	sw	zero, 1088(sp)
	sh	zero, 1092(sp)
	ld	a0, 240(sp)
	ld	a1, 248(sp)
	ld	a2, 256(sp)
	ld	a3, 264(sp)
	sd	a0, 1056(sp)
	sd	a1, 1064(sp)
	sd	a2, 1072(sp)
	sd	a3, 1080(sp)
	ld	a0, 208(sp)
	ld	a1, 216(sp)
	ld	a2, 224(sp)
	ld	a3, 232(sp)
	sd	a0, 1024(sp)
	sd	a1, 1032(sp)
	sd	a2, 1040(sp)
	sd	a3, 1048(sp)
	addi	a0, sp, 722
	addi	a1, sp, 1432
	li	a2, 302
	call	memcpy
	addi	a0, sp, 660
	addi	a1, sp, 1370
	li	a2, 62
	call	memcpy
	ld	a0, 1424(s6)
	ld	a1, 1432(s6)
	ld	a2, 1440(s6)
	ld	a3, 1448(s6)
	sd	a0, 592(sp)
	sd	a1, 600(sp)
	sd	a2, 608(sp)
	sd	a3, 616(sp)
	ld	a0, 1456(s6)
	ld	a1, 1464(s6)
	ld	a2, 1472(s6)
	ld	a3, 1480(s6)
	sd	a0, 624(sp)
	sd	a1, 632(sp)
	sd	a2, 640(sp)
	sd	a3, 648(sp)
	ld	a0, 104(sp)
	ld	a1, 112(sp)
	ld	a2, 120(sp)
	ld	a3, 128(sp)
	sw	zero, 552(sp)
	sh	zero, 556(sp)
	sb	zero, 558(sp)
	sd	a0, 560(sp)
	sd	a1, 568(sp)
	sd	a2, 576(sp)
	sd	a3, 584(sp)
	li	a0, 1
	ld	s6, 56(sp)
	ld	s5, 64(sp)
	ld	s9, 16(sp)
	ld	s3, 24(sp)
	ld	s0, 72(sp)
	j	.Lnoise_BB26_132
.Lnoise_BB26_143:
	li	s1, 0
	j	.Lnoise_BB26_105
.Lnoise_BB26_144:
	unimp
.Lnoise_func_end26:
	.size	noise_noise_c_from_c_restored, .Lnoise_func_end26-noise_noise_c_from_c_restored
	.cfi_endproc
	.section	".rodata.noise_c::from_c::restored","a",@progbits
	.p2align	2, 0x0
.Lnoise_JTI26_0:
	.word	.Lnoise_BB26_81-.Lnoise_JTI26_0
	.word	.Lnoise_BB26_78-.Lnoise_JTI26_0
	.word	.Lnoise_BB26_82-.Lnoise_JTI26_0
	.word	.Lnoise_BB26_77-.Lnoise_JTI26_0
	.word	.Lnoise_BB26_83-.Lnoise_JTI26_0
	.word	.Lnoise_BB26_84-.Lnoise_JTI26_0
	.word	.Lnoise_BB26_79-.Lnoise_JTI26_0
.Lnoise_JTI26_1:
	.word	.Lnoise_BB26_91-.Lnoise_JTI26_1
	.word	.Lnoise_BB26_90-.Lnoise_JTI26_1
	.word	.Lnoise_BB26_93-.Lnoise_JTI26_1
	.word	.Lnoise_BB26_94-.Lnoise_JTI26_1
	.word	.Lnoise_BB26_89-.Lnoise_JTI26_1
	.word	.Lnoise_BB26_95-.Lnoise_JTI26_1
	.word	.Lnoise_BB26_96-.Lnoise_JTI26_1

	.section	".text.noise_names::valid::ValidPattern::seen_after","ax",@progbits
	.p2align	1
	.type	noise_noise_names_valid_ValidPattern_seen_after,@function
noise_noise_names_valid_ValidPattern_seen_after:
	.cfi_startproc
	addi	sp, sp, -32
	.cfi_def_cfa_offset 32
	sd	s0, 24(sp)
	sd	s1, 16(sp)
	sd	s2, 8(sp)
	sd	s3, 0(sp)
	.cfi_offset s0, -8
	.cfi_offset s1, -16
	.cfi_offset s2, -24
	.cfi_offset s3, -32
	ld	a4, 48(a1)
	beqz	a4, .Lnoise_BB27_11
	li	a6, 0
	li	a7, 0
	li	t0, 0
	li	t1, 0
	li	t3, 0
	li	t4, 0
	li	s1, 0
	addi	a5, a1, 40
	j	.Lnoise_BB27_5
.Lnoise_BB27_2:
	li	t1, 1
.Lnoise_BB27_3:
	mv	a3, s1
.Lnoise_BB27_4:
	addi	a4, a4, -1
	addi	a5, a5, 1
	mv	s1, a3
	beqz	a4, .Lnoise_BB27_12
.Lnoise_BB27_5:
	lbu	a3, 0(a5)
.Lnoise_pcrel_hi18:
	auipc	s0, %pcrel_hi(.Lnoise_JTI27_0)
	slli	a3, a3, 2
	addi	s0, s0, %pcrel_lo(.Lnoise_pcrel_hi18)
	add	a3, a3, s0
	lw	a3, 0(a3)
	add	s0, s0, a3
	li	a3, 1
	jr	s0
.Lnoise_BB27_6:
	li	a6, 1
	j	.Lnoise_BB27_3
.Lnoise_BB27_7:
	li	a7, 1
	j	.Lnoise_BB27_3
.Lnoise_BB27_8:
	li	t0, 1
	j	.Lnoise_BB27_3
.Lnoise_BB27_9:
	li	t3, 1
	j	.Lnoise_BB27_3
.Lnoise_BB27_10:
	li	t4, 1
	j	.Lnoise_BB27_3
.Lnoise_BB27_11:
	li	a6, 0
	li	a7, 0
	li	t0, 0
	li	t1, 0
	li	t3, 0
	li	t4, 0
	li	a3, 0
.Lnoise_BB27_12:
	ld	a4, 64(a1)
	beqz	a4, .Lnoise_BB27_23
	li	t5, 0
	li	t2, 0
	addi	s0, a1, 56
	j	.Lnoise_BB27_17
.Lnoise_BB27_14:
	li	t3, 1
.Lnoise_BB27_15:
	mv	a5, t5
.Lnoise_BB27_16:
	addi	a4, a4, -1
	addi	s0, s0, 1
	mv	t5, a5
	beqz	a4, .Lnoise_BB27_24
.Lnoise_BB27_17:
	lbu	a5, 0(s0)
.Lnoise_pcrel_hi19:
	auipc	s1, %pcrel_hi(.Lnoise_JTI27_1)
	slli	a5, a5, 2
	addi	s1, s1, %pcrel_lo(.Lnoise_pcrel_hi19)
	add	a5, a5, s1
	lw	a5, 0(a5)
	add	s1, s1, a5
	li	a5, 1
	jr	s1
.Lnoise_BB27_18:
	li	t2, 1
	j	.Lnoise_BB27_15
.Lnoise_BB27_19:
	li	t0, 1
	j	.Lnoise_BB27_15
.Lnoise_BB27_20:
	li	t1, 1
	j	.Lnoise_BB27_15
.Lnoise_BB27_21:
	li	t4, 1
	j	.Lnoise_BB27_15
.Lnoise_BB27_22:
	li	a3, 1
	j	.Lnoise_BB27_15
.Lnoise_BB27_23:
	li	a5, 0
	li	t2, 0
.Lnoise_BB27_24:
	li	t5, 0
	beqz	a2, .Lnoise_BB27_49
	li	s2, 0
	addi	t6, a1, 72
	mv	s3, t6
	j	.Lnoise_BB27_28
.Lnoise_BB27_26:
	mv	a5, a4
.Lnoise_BB27_27:
	xori	t5, t5, 1
	addi	s2, s2, 1
	addi	s3, s3, 24
	beq	s2, a2, .Lnoise_BB27_49
.Lnoise_BB27_28:
	slli	a4, s2, 3
	slli	s0, s2, 4
	add	a4, a4, s0
	add	a4, a4, t6
	ld	s0, 16(a4)
	beqz	s0, .Lnoise_BB27_27
	mv	s1, s3
	bnez	t5, .Lnoise_BB27_33
	j	.Lnoise_BB27_42
.Lnoise_BB27_30:
	li	t3, 1
.Lnoise_BB27_31:
	mv	a4, a5
.Lnoise_BB27_32:
	addi	s0, s0, -1
	addi	s1, s1, 1
	mv	a5, a4
	beqz	s0, .Lnoise_BB27_26
.Lnoise_BB27_33:
	lbu	a1, 0(s1)
.Lnoise_pcrel_hi21:
	auipc	a4, %pcrel_hi(.Lnoise_JTI27_2)
	slli	a1, a1, 2
	addi	a4, a4, %pcrel_lo(.Lnoise_pcrel_hi21)
	add	a1, a1, a4
	lw	a1, 0(a1)
	add	a1, a1, a4
	li	a4, 1
	jr	a1
.Lnoise_BB27_34:
	li	t2, 1
	j	.Lnoise_BB27_31
.Lnoise_BB27_35:
	li	t0, 1
	j	.Lnoise_BB27_31
.Lnoise_BB27_36:
	li	t1, 1
	j	.Lnoise_BB27_31
.Lnoise_BB27_37:
	li	t4, 1
	j	.Lnoise_BB27_31
.Lnoise_BB27_38:
	li	a3, 1
	j	.Lnoise_BB27_31
.Lnoise_BB27_39:
	li	t1, 1
.Lnoise_BB27_40:
	mv	a4, a3
.Lnoise_BB27_41:
	addi	s0, s0, -1
	addi	s1, s1, 1
	mv	a3, a4
	beqz	s0, .Lnoise_BB27_48
.Lnoise_BB27_42:
	lbu	a4, 0(s1)
.Lnoise_pcrel_hi20:
	auipc	a1, %pcrel_hi(.Lnoise_JTI27_3)
	slli	a4, a4, 2
	addi	a1, a1, %pcrel_lo(.Lnoise_pcrel_hi20)
	add	a4, a4, a1
	lw	a4, 0(a4)
	add	a1, a1, a4
	li	a4, 1
	jr	a1
.Lnoise_BB27_43:
	li	a6, 1
	j	.Lnoise_BB27_40
.Lnoise_BB27_44:
	li	a7, 1
	j	.Lnoise_BB27_40
.Lnoise_BB27_45:
	li	t0, 1
	j	.Lnoise_BB27_40
.Lnoise_BB27_46:
	li	t3, 1
	j	.Lnoise_BB27_40
.Lnoise_BB27_47:
	li	t4, 1
	j	.Lnoise_BB27_40
.Lnoise_BB27_48:
	mv	a3, a4
	j	.Lnoise_BB27_27
.Lnoise_BB27_49:
	sb	a6, 0(a0)
	sb	a7, 1(a0)
	sb	a5, 2(a0)
	sb	t2, 3(a0)
	sb	t0, 4(a0)
	sb	t1, 5(a0)
	sb	t3, 6(a0)
	sb	t4, 7(a0)
	sb	a3, 8(a0)
	sb	t5, 9(a0)
	ld	s0, 24(sp)
	ld	s1, 16(sp)
	ld	s2, 8(sp)
	ld	s3, 0(sp)
	.cfi_restore s0
	.cfi_restore s1
	.cfi_restore s2
	.cfi_restore s3
	addi	sp, sp, 32
	.cfi_def_cfa_offset 0
	ret
.Lnoise_func_end27:
	.size	noise_noise_names_valid_ValidPattern_seen_after, .Lnoise_func_end27-noise_noise_names_valid_ValidPattern_seen_after
	.cfi_endproc
	.section	".rodata.noise_names::valid::ValidPattern::seen_after","a",@progbits
	.p2align	2, 0x0
.Lnoise_JTI27_0:
	.word	.Lnoise_BB27_6-.Lnoise_JTI27_0
	.word	.Lnoise_BB27_7-.Lnoise_JTI27_0
	.word	.Lnoise_BB27_8-.Lnoise_JTI27_0
	.word	.Lnoise_BB27_2-.Lnoise_JTI27_0
	.word	.Lnoise_BB27_9-.Lnoise_JTI27_0
	.word	.Lnoise_BB27_10-.Lnoise_JTI27_0
	.word	.Lnoise_BB27_4-.Lnoise_JTI27_0
.Lnoise_JTI27_1:
	.word	.Lnoise_BB27_16-.Lnoise_JTI27_1
	.word	.Lnoise_BB27_18-.Lnoise_JTI27_1
	.word	.Lnoise_BB27_19-.Lnoise_JTI27_1
	.word	.Lnoise_BB27_20-.Lnoise_JTI27_1
	.word	.Lnoise_BB27_14-.Lnoise_JTI27_1
	.word	.Lnoise_BB27_21-.Lnoise_JTI27_1
	.word	.Lnoise_BB27_22-.Lnoise_JTI27_1
.Lnoise_JTI27_2:
	.word	.Lnoise_BB27_32-.Lnoise_JTI27_2
	.word	.Lnoise_BB27_34-.Lnoise_JTI27_2
	.word	.Lnoise_BB27_35-.Lnoise_JTI27_2
	.word	.Lnoise_BB27_36-.Lnoise_JTI27_2
	.word	.Lnoise_BB27_30-.Lnoise_JTI27_2
	.word	.Lnoise_BB27_37-.Lnoise_JTI27_2
	.word	.Lnoise_BB27_38-.Lnoise_JTI27_2
.Lnoise_JTI27_3:
	.word	.Lnoise_BB27_43-.Lnoise_JTI27_3
	.word	.Lnoise_BB27_44-.Lnoise_JTI27_3
	.word	.Lnoise_BB27_45-.Lnoise_JTI27_3
	.word	.Lnoise_BB27_39-.Lnoise_JTI27_3
	.word	.Lnoise_BB27_46-.Lnoise_JTI27_3
	.word	.Lnoise_BB27_47-.Lnoise_JTI27_3
	.word	.Lnoise_BB27_41-.Lnoise_JTI27_3

	.section	".text.noise_handshake::layout::lay_next","ax",@progbits
	.p2align	1
	.type	noise_noise_handshake_layout_lay_next,@function
noise_noise_handshake_layout_lay_next:
	.cfi_startproc
	addi	sp, sp, -144
	.cfi_def_cfa_offset 144
	sd	ra, 136(sp)
	sd	s0, 128(sp)
	sd	s1, 120(sp)
	sd	s2, 112(sp)
	.cfi_offset ra, -8
	.cfi_offset s0, -16
	.cfi_offset s1, -24
	.cfi_offset s2, -32
	mv	s2, a0
	sd	zero, 48(sp)
	sd	zero, 56(sp)
	ld	a0, 264(a1)
	sd	zero, 16(sp)
	sd	zero, 24(sp)
	sd	zero, 32(sp)
	sd	zero, 40(sp)
	zext.b	a4, a4
	sw	zero, 8(sp)
	sb	zero, 12(sp)
	bgeu	a4, a0, .Lnoise_BB28_12
	slli	a5, a4, 3
	slli	s1, a4, 4
	sltu	a0, a4, a0
	add	a5, a5, s1
	neg	a6, a0
	add	a1, a1, a5
	addi	a7, a1, 72
	ld	a0, 16(a7)
	sd	zero, 96(sp)
	sd	zero, 104(sp)
	sd	zero, 64(sp)
	sd	zero, 72(sp)
	sd	zero, 80(sp)
	sd	zero, 88(sp)
	beqz	a0, .Lnoise_BB28_13
	li	t0, 0
	li	t2, 0
	addi	t4, sp, 64
	li	s0, 1
	mv	s1, a0
	mv	a4, a7
	j	.Lnoise_BB28_5
.Lnoise_BB28_3:
	li	t1, 0
	slli	a3, t2, 16
	or	a1, a1, a3
	sw	a1, 0(t4)
	sd	s0, 104(sp)
	li	a3, 1
.Lnoise_BB28_4:
	addi	a4, a4, 1
	addi	s1, s1, -1
	add	t2, t2, t1
	addi	t4, t4, 4
	addi	s0, s0, 1
	beqz	s1, .Lnoise_BB28_14
.Lnoise_BB28_5:
	lbu	a1, 0(a4)
	addi	t1, a1, -2
	li	t3, 5
	addi	t0, t0, 1
	bltu	t1, t3, .Lnoise_BB28_3
	li	a5, 1
	bne	a1, a5, .Lnoise_BB28_9
	andi	a1, a3, 1
	bnez	a1, .Lnoise_BB28_10
	li	t1, 32
	lui	a1, 2
	j	.Lnoise_BB28_11
.Lnoise_BB28_9:
	slli	a1, t2, 16
	lui	a5, 2
	or	a3, a3, a2
	or	a1, a1, a5
	sw	a1, 0(t4)
	sd	s0, 104(sp)
	li	t1, 32
	j	.Lnoise_BB28_4
.Lnoise_BB28_10:
	li	t1, 48
	lui	a1, 3
.Lnoise_BB28_11:
	slli	a5, t2, 16
	or	a1, a1, a5
	addi	a1, a1, 1
	sw	a1, 0(t4)
	sd	s0, 104(sp)
	j	.Lnoise_BB28_4
.Lnoise_BB28_12:
	li	s1, 0
	li	s0, 0
	j	.Lnoise_BB28_20
.Lnoise_BB28_13:
	li	t2, 0
.Lnoise_BB28_14:
	li	s0, 0
	and	a2, a6, a7
.Lnoise_BB28_15:
	mv	a4, a2
.Lnoise_BB28_16:
	beqz	a0, .Lnoise_BB28_19
	lbu	a1, 0(a4)
	addi	a2, a4, 1
	li	a5, 6
	addi	a0, a0, -1
	mv	a4, a2
	bne	a1, a5, .Lnoise_BB28_16
	addi	s0, s0, 1
	j	.Lnoise_BB28_15
.Lnoise_BB28_19:
	andi	a3, a3, 1
	ld	a0, 96(sp)
	ld	a1, 104(sp)
	slli	a3, a3, 4
	add	s1, t2, a3
	sd	a0, 48(sp)
	sd	a1, 56(sp)
	ld	a0, 64(sp)
	ld	a1, 72(sp)
	ld	a2, 80(sp)
	ld	a3, 88(sp)
	sd	a0, 16(sp)
	sd	a1, 24(sp)
	sd	a2, 32(sp)
	sd	a3, 40(sp)
	sw	zero, 8(sp)
	sb	zero, 12(sp)
.Lnoise_BB28_20:
	addi	a1, sp, 16
	li	a2, 48
	mv	a0, s2
	call	memcpy
	srli	a0, s1, 8
	lbu	a1, 8(sp)
	lbu	a2, 9(sp)
	lbu	a3, 10(sp)
	lbu	a4, 11(sp)
	sb	s1, 48(s2)
	sb	a0, 49(s2)
	sb	s0, 50(s2)
	sb	a1, 51(s2)
	lbu	a0, 12(sp)
	sb	a2, 52(s2)
	sb	a3, 53(s2)
	sb	a4, 54(s2)
	sb	a0, 55(s2)
	ld	ra, 136(sp)
	ld	s0, 128(sp)
	ld	s1, 120(sp)
	ld	s2, 112(sp)
	.cfi_restore ra
	.cfi_restore s0
	.cfi_restore s1
	.cfi_restore s2
	addi	sp, sp, 144
	.cfi_def_cfa_offset 0
	ret
.Lnoise_func_end28:
	.size	noise_noise_handshake_layout_lay_next, .Lnoise_func_end28-noise_noise_handshake_layout_lay_next
	.cfi_endproc

	.section	".text.noise_c::messages::read_next","ax",@progbits
	.p2align	1
	.type	noise_noise_c_messages_read_next,@function
noise_noise_c_messages_read_next:
	.cfi_startproc
	addi	sp, sp, -2032
	.cfi_def_cfa_offset 2032
	sd	ra, 2024(sp)
	sd	s0, 2016(sp)
	sd	s1, 2008(sp)
	sd	s2, 2000(sp)
	sd	s3, 1992(sp)
	sd	s4, 1984(sp)
	sd	s5, 1976(sp)
	sd	s6, 1968(sp)
	sd	s7, 1960(sp)
	sd	s8, 1952(sp)
	sd	s9, 1944(sp)
	sd	s10, 1936(sp)
	sd	s11, 1928(sp)
	.cfi_offset ra, -8
	.cfi_offset s0, -16
	.cfi_offset s1, -24
	.cfi_offset s2, -32
	.cfi_offset s3, -40
	.cfi_offset s4, -48
	.cfi_offset s5, -56
	.cfi_offset s6, -64
	.cfi_offset s7, -72
	.cfi_offset s8, -80
	.cfi_offset s9, -88
	.cfi_offset s10, -96
	.cfi_offset s11, -104
	addi	sp, sp, -1216
	.cfi_def_cfa_offset 3248
	.cfi_remember_state
	mv	s5, a3
	mv	s0, a2
	mv	s3, a1
	mv	s1, a0
	addi	a0, sp, 936
	li	a2, 864
	li	a1, 0
	call	memset
	addi	a0, sp, 2047
	addi	a0, a0, 33
	li	a2, 872
	li	a1, 0
	call	memset
	lw	a0, 0(s1)
	lui	a1, 321264
	addi	a1, a1, 257
	bne	a0, a1, .Lnoise_BB29_8
	lhu	a2, 420(s1)
	li	a0, 416
	bltu	a0, a2, .Lnoise_BB29_8
	lbu	a0, 846(s1)
	li	a1, 8
	bltu	a1, a0, .Lnoise_BB29_8
	lbu	a0, 557(s1)
	li	a1, 9
	bltu	a1, a0, .Lnoise_BB29_8
	addi	a1, s1, 4
	addi	a0, sp, 1800
	call	noise_noise_c_patterns_pattern_of
	lbu	a0, 1800(sp)
	bnez	a0, .Lnoise_BB29_8
	addi	s11, sp, 2047
	addi	s11, s11, 33
	addi	a2, sp, 1808
	addi	a0, sp, 2047
	addi	a0, a0, 33
	mv	a1, s1
	call	noise_noise_c_from_c_restored
	lbu	s2, 0(s11)
	addi	a1, sp, 2047
	addi	a1, a1, 41
	addi	a0, sp, 72
	li	a2, 864
	call	memcpy
	li	a0, 1
	bne	s2, a0, .Lnoise_BB29_8
	addi	a0, sp, 936
	addi	a1, sp, 72
	li	a2, 864
	call	memcpy
	srli	a0, s0, 16
	beqz	a0, .Lnoise_BB29_10
	li	a0, 24
	j	.Lnoise_BB29_9
.Lnoise_BB29_8:
	li	a0, 23
.Lnoise_BB29_9:
	addi	sp, sp, 1216
	.cfi_def_cfa_offset 2032
	ld	ra, 2024(sp)
	ld	s0, 2016(sp)
	ld	s1, 2008(sp)
	ld	s2, 2000(sp)
	ld	s3, 1992(sp)
	ld	s4, 1984(sp)
	ld	s5, 1976(sp)
	ld	s6, 1968(sp)
	ld	s7, 1960(sp)
	ld	s8, 1952(sp)
	ld	s9, 1944(sp)
	ld	s10, 1936(sp)
	ld	s11, 1928(sp)
	.cfi_restore ra
	.cfi_restore s0
	.cfi_restore s1
	.cfi_restore s2
	.cfi_restore s3
	.cfi_restore s4
	.cfi_restore s5
	.cfi_restore s6
	.cfi_restore s7
	.cfi_restore s8
	.cfi_restore s9
	.cfi_restore s10
	.cfi_restore s11
	addi	sp, sp, 2032
	.cfi_def_cfa_offset 0
	ret
.Lnoise_BB29_10:
	.cfi_restore_state
	lbu	a0, 1625(sp)
	beqz	a0, .Lnoise_BB29_12
	li	a0, 13
	j	.Lnoise_BB29_9
.Lnoise_BB29_12:
	lbu	a0, 1624(sp)
	ld	a1, 1200(sp)
	bne	a1, a0, .Lnoise_BB29_14
	li	a0, 12
	j	.Lnoise_BB29_9
.Lnoise_BB29_14:
	lbu	a1, 1240(sp)
	seqz	a1, a1
	xor	a0, a0, a1
	andi	a0, a0, 1
	beqz	a0, .Lnoise_BB29_16
	li	a0, 10
	j	.Lnoise_BB29_9
.Lnoise_BB29_16:
	ld	a0, 1608(sp)
	ld	s7, 1616(sp)
	ld	s2, 1672(sp)
	addi	s4, sp, 1632
	sub	s6, a0, s7
	mv	a0, s4
	mv	a1, s2
	mv	a2, s6
	call	noise_noise_handshake_layout_psk_after
	zext.b	a2, a0
	slli	a0, s7, 5
	beqz	a2, .Lnoise_BB29_24
	addi	a2, a2, -1
	sd	zero, 872(s11)
	sh	zero, 880(s11)
	sd	zero, 896(s11)
	sb	zero, 904(s11)
	addi	a6, sp, 936
	ld	a4, 824(sp)
	ld	a5, 832(sp)
	ld	s1, 840(sp)
	ld	a3, 848(sp)
	add	a6, a6, a0
	ld	a0, 856(sp)
	ld	a7, 864(sp)
	ld	t0, 872(sp)
	ld	t1, 880(sp)
	snez	a2, a2
	addi	a2, a2, -1
	and	a1, a1, a2
	sd	zero, 912(s11)
	sd	zero, 920(s11)
	sd	zero, 928(s11)
	sd	a4, 968(s11)
	lbu	a2, 1752(sp)
	ld	s10, 1792(sp)
	sd	a5, 976(s11)
	sd	s1, 984(s11)
	sd	a3, 992(s11)
	sd	a0, 1000(s11)
	addi	a0, sp, 2047
	addi	a0, a0, 98
	addi	s9, a6, 384
	zext.b	s8, a1
	sd	a7, 1008(s11)
	sd	t0, 1016(s11)
	sd	t1, 1024(s11)
	sb	a2, 64(s11)
	ld	a1, 1000(s11)
	ld	a2, 1008(s11)
	ld	a3, 1016(s11)
	ld	a4, 1024(s11)
	sd	a1, 32(s11)
	sd	a2, 40(s11)
	sd	a3, 48(s11)
	sd	a4, 56(s11)
	ld	a1, 968(s11)
	ld	a2, 976(s11)
	ld	a3, 984(s11)
	ld	a4, 992(s11)
	sd	a1, 0(s11)
	sd	a2, 8(s11)
	sd	a3, 16(s11)
	sd	a4, 24(s11)
	addi	a1, sp, 889
	li	a2, 32
	call	memcpy
	sb	zero, 97(s11)
	sb	zero, 98(s11)
	sb	zero, 99(s11)
	sb	zero, 100(s11)
	lbu	s7, 1248(sp)
	sb	zero, 101(s11)
	sb	zero, 102(s11)
	sb	zero, 103(s11)
	sd	s10, 104(s11)
	addi	a0, sp, 1801
	addi	a1, sp, 385
	li	a2, 32
	call	memcpy
	lbu	s1, 1281(sp)
	addi	a0, sp, 1834
	addi	a1, sp, 418
	li	a2, 32
	call	memcpy
	sb	s7, 1800(sp)
	sb	s1, 1833(sp)
	addi	a0, sp, 2047
	addi	a0, a0, 945
	addi	a1, sp, 2047
	addi	a1, a1, 33
	addi	a2, sp, 1800
	addi	a3, sp, 1208
	mv	a4, s9
	mv	a5, s6
	mv	a6, s4
	mv	a7, s8
	mv	t3, s3
	mv	t4, s0
	call	noise_noise_handshake_reader_read_tokens_3dfcfe118667ed30
	lbu	a0, 912(s11)
	snez	a4, a0
	beqz	a0, .Lnoise_BB29_31
	ld	a2, 920(s11)
	lbu	s0, 928(s11)
	bltu	a2, s2, .Lnoise_BB29_19
	j	.Lnoise_BB29_81
.Lnoise_BB29_19:
	li	a0, 2
	beq	s0, a0, .Lnoise_BB29_20
	j	.Lnoise_BB29_81
.Lnoise_BB29_20:
	lbu	a0, 1240(sp)
	slli	a1, a2, 2
	add	a1, a1, s4
	lbu	t3, 0(a1)
	beqz	a0, .Lnoise_BB29_37
	andi	a0, t3, 254
	li	a3, 4
	bne	a0, a3, .Lnoise_BB29_44
	lbu	a0, 1833(sp)
	li	a1, 1
	beq	a0, a1, .Lnoise_BB29_23
	j	.Lnoise_BB29_81
.Lnoise_BB29_23:
	sd	a4, 56(sp)
	lbu	a0, 1834(sp)
	sd	a0, 32(sp)
	lbu	a0, 1835(sp)
	sd	a0, 40(sp)
	lbu	a0, 1836(sp)
	sd	a0, 48(sp)
	lbu	a7, 1837(sp)
	lbu	a0, 1838(sp)
	sd	a0, 16(sp)
	lbu	a0, 1839(sp)
	sd	a0, 8(sp)
	lbu	s2, 1840(sp)
	lbu	s4, 1841(sp)
	lbu	s3, 1842(sp)
	lbu	s9, 1843(sp)
	lbu	s8, 1844(sp)
	lbu	t5, 1845(sp)
	lbu	s7, 1846(sp)
	lbu	t6, 1847(sp)
	lbu	a0, 1848(sp)
	lbu	ra, 1849(sp)
	lbu	a1, 1854(sp)
	sd	a1, 64(sp)
	lbu	a1, 1855(sp)
	lbu	a2, 1856(sp)
	lbu	a4, 1857(sp)
	lbu	a5, 1858(sp)
	lbu	a6, 1859(sp)
	lbu	t0, 1860(sp)
	lbu	s1, 1861(sp)
	slli	a2, a2, 8
	slli	a4, a4, 16
	slli	a5, a5, 24
	or	t2, a2, a1
	or	a4, a4, a5
	lbu	a2, 1862(sp)
	lbu	t4, 1863(sp)
	lbu	a5, 1864(sp)
	lbu	a1, 1865(sp)
	slli	t0, t0, 8
	slli	s1, s1, 16
	slli	a2, a2, 24
	or	s0, t0, a6
	or	a2, a2, s1
	or	s1, a4, t2
	or	a2, a2, s0
	lbu	t1, 1850(sp)
	lbu	t2, 1851(sp)
	lbu	a6, 1852(sp)
	lbu	a3, 1853(sp)
	j	.Lnoise_BB29_46
.Lnoise_BB29_24:
	addi	a6, sp, 936
	ld	a2, 824(sp)
	ld	a3, 832(sp)
	ld	a4, 840(sp)
	ld	a5, 848(sp)
	ld	a7, 856(sp)
	ld	t0, 864(sp)
	ld	t1, 872(sp)
	ld	t2, 880(sp)
	add	a6, a6, a0
	lbu	a1, 1752(sp)
	ld	s8, 1792(sp)
	sd	a2, 968(s11)
	sd	a3, 976(s11)
	sd	a4, 984(s11)
	sd	a5, 992(s11)
	addi	a0, sp, 2047
	addi	a0, a0, 98
	addi	s10, a6, 384
	sd	a7, 1000(s11)
	sd	t0, 1008(s11)
	sd	t1, 1016(s11)
	sd	t2, 1024(s11)
	sb	a1, 64(s11)
	ld	a4, 968(s11)
	ld	a1, 976(s11)
	ld	a2, 984(s11)
	ld	a3, 992(s11)
	sd	a4, 0(s11)
	sd	a1, 8(s11)
	sd	a2, 16(s11)
	sd	a3, 24(s11)
	ld	a4, 1000(s11)
	ld	a1, 1008(s11)
	ld	a2, 1016(s11)
	ld	a3, 1024(s11)
	sd	a4, 32(s11)
	sd	a1, 40(s11)
	sd	a2, 48(s11)
	sd	a3, 56(s11)
	addi	a1, sp, 889
	li	a2, 32
	call	memcpy
	sb	zero, 97(s11)
	sb	zero, 98(s11)
	sb	zero, 99(s11)
	sb	zero, 100(s11)
	lbu	s7, 1248(sp)
	sb	zero, 101(s11)
	sb	zero, 102(s11)
	sb	zero, 103(s11)
	sd	s8, 104(s11)
	addi	a0, sp, 1801
	addi	a1, sp, 385
	li	a2, 32
	call	memcpy
	lbu	s8, 1281(sp)
	addi	s9, sp, 1834
	addi	a1, sp, 418
	li	a2, 32
	mv	a0, s9
	call	memcpy
	sb	s7, 1800(sp)
	sb	s8, 1833(sp)
	addi	a3, sp, 1208
	sd	zero, 872(s11)
	sd	zero, 880(s11)
	sd	zero, 888(s11)
	addi	a0, sp, 2047
	addi	a0, a0, 905
	addi	a1, sp, 2047
	addi	a1, a1, 33
	addi	a2, sp, 1800
	mv	a4, s10
	mv	a5, s6
	mv	a6, s4
	mv	a7, s2
	mv	t3, s3
	mv	t4, s0
	call	noise_noise_handshake_reader_read_tokens_3dfcfe118667ed30
	lbu	a0, 872(s11)
	ld	s10, 880(s11)
	beqz	a0, .Lnoise_BB29_32
	ld	s0, 888(s11)
	zext.b	a0, s0
	li	a1, 2
	li	s11, 0
	bne	a0, a1, .Lnoise_BB29_36
	bgeu	s10, s2, .Lnoise_BB29_36
	lbu	a0, 1240(sp)
	slli	a1, s10, 2
	add	a1, a1, s4
	lbu	s4, 0(a1)
	beqz	a0, .Lnoise_BB29_47
	andi	a0, s4, 254
	li	a1, 4
	bne	a0, a1, .Lnoise_BB29_52
	lbu	a0, 1833(sp)
	li	a1, 1
	bne	a0, a1, .Lnoise_BB29_74
	lbu	s8, 1834(sp)
	lbu	s7, 1835(sp)
	lbu	s6, 1836(sp)
	lbu	t2, 1837(sp)
	lbu	a1, 1838(sp)
	lbu	a2, 1839(sp)
	lbu	a3, 1840(sp)
	lbu	a6, 1841(sp)
	lbu	t1, 1842(sp)
	lbu	t4, 1843(sp)
	lbu	t6, 1844(sp)
	lbu	a4, 1845(sp)
	lbu	a5, 1846(sp)
	lbu	a0, 1847(sp)
	lbu	s1, 1848(sp)
	lbu	t5, 1849(sp)
	slli	s0, a1, 8
	slli	a2, a2, 16
	slli	a1, a3, 24
	or	s2, s0, t2
	or	s3, a1, a2
	lbu	a2, 1850(sp)
	lbu	s0, 1851(sp)
	lbu	a3, 1852(sp)
	lbu	t2, 1853(sp)
	slli	t1, t1, 8
	slli	t4, t4, 16
	slli	t6, t6, 24
	slli	a5, a5, 8
	slli	a0, a0, 16
	slli	s1, s1, 24
	or	a6, t1, a6
	or	t1, t6, t4
	or	t4, a5, a4
	or	t6, s1, a0
	lbu	a5, 1858(sp)
	lbu	s1, 1859(sp)
	lbu	a1, 1860(sp)
	lbu	a4, 1861(sp)
	slli	a2, a2, 8
	slli	s0, s0, 16
	slli	a3, a3, 24
	slli	s1, s1, 8
	slli	a1, a1, 16
	slli	a4, a4, 24
	or	t5, a2, t5
	or	a3, a3, s0
	or	a5, a5, s1
	or	a1, a1, a4
	lbu	a4, 1863(sp)
	lbu	s1, 1862(sp)
	lbu	s0, 1864(sp)
	lbu	a0, 1865(sp)
	slli	a4, a4, 8
	or	a4, a4, s1
	slli	s0, s0, 16
	slli	a0, a0, 24
	or	a0, a0, s0
	or	s2, s3, s2
	or	s0, t1, a6
	or	a2, t6, t4
	or	a3, a3, t5
	or	s1, a1, a5
	or	a0, a0, a4
	lbu	a1, 1854(sp)
	lbu	a6, 1855(sp)
	lbu	t3, 1856(sp)
	lbu	t4, 1857(sp)
	j	.Lnoise_BB29_54
.Lnoise_BB29_31:
	sd	a4, 56(sp)
	lbu	t0, 1833(sp)
	lbu	a0, 1834(sp)
	sd	a0, 32(sp)
	lbu	a0, 1835(sp)
	sd	a0, 40(sp)
	lbu	a0, 1836(sp)
	sd	a0, 48(sp)
	lbu	a7, 1837(sp)
	lbu	a0, 1838(sp)
	lbu	t6, 1839(sp)
	lbu	s11, 1840(sp)
	lbu	s2, 1841(sp)
	lbu	s6, 1842(sp)
	lbu	s8, 1843(sp)
	lbu	s9, 1844(sp)
	lbu	t5, 1845(sp)
	lbu	s4, 1846(sp)
	lbu	s7, 1847(sp)
	lbu	s3, 1848(sp)
	lbu	ra, 1849(sp)
	lbu	t1, 1850(sp)
	lbu	t2, 1851(sp)
	lbu	a6, 1852(sp)
	lbu	t4, 1857(sp)
	lbu	a1, 1858(sp)
	lbu	a2, 1859(sp)
	lbu	a5, 1860(sp)
	lbu	a4, 1861(sp)
	lbu	s0, 1862(sp)
	lbu	a3, 1863(sp)
	lbu	s1, 1864(sp)
	slli	a2, a2, 8
	or	a1, a1, a2
	lbu	a2, 1865(sp)
	slli	a5, a5, 16
	slli	a4, a4, 24
	slli	a3, a3, 8
	slli	s1, s1, 16
	slli	a2, a2, 24
	or	a4, a4, a5
	or	a3, a3, s0
	or	a2, a2, s1
	or	a4, a4, a1
	lbu	a5, 1853(sp)
	lbu	a1, 1854(sp)
	sd	a1, 64(sp)
	mv	a1, a0
	lbu	s10, 1855(sp)
	lbu	t3, 1856(sp)
	or	a2, a2, a3
	mv	a3, s11
	slli	a2, a2, 32
	or	s11, a2, a4
	mv	a4, s3
	mv	a2, t6
	mv	s1, s8
	mv	s3, s6
	j	.Lnoise_BB29_79
.Lnoise_BB29_32:
	lbu	a0, 64(s11)
	sub	s0, s0, s10
	li	a1, 1
	sd	zero, 896(s11)
	sd	zero, 904(s11)
	bne	a0, a1, .Lnoise_BB29_40
	srli	a0, s0, 16
	bnez	a0, .Lnoise_BB29_85
	ld	a0, 104(s11)
	li	a1, -1
	beq	a0, a1, .Lnoise_BB29_85
	li	a0, 15
	bltu	a0, s0, .Lnoise_BB29_41
	j	.Lnoise_BB29_43
.Lnoise_BB29_36:
	mv	s2, s10
	mv	t4, s11
	mv	t3, s11
	mv	a6, s11
	mv	a1, s11
	mv	a5, s11
	mv	s6, s11
	mv	s7, s11
	mv	s8, s11
	mv	a7, s11
	mv	t5, s11
	mv	t0, s11
	mv	a4, s11
	j	.Lnoise_BB29_77
.Lnoise_BB29_37:
	sd	a4, 56(sp)
	li	a0, 87
	srl	a0, a0, t3
	andi	a0, a0, 1
	beqz	a0, .Lnoise_BB29_55
	lbu	a0, 1800(sp)
	li	a3, 1
	bne	a0, a3, .Lnoise_BB29_81
	lbu	a0, 1801(sp)
	sd	a0, 32(sp)
	lbu	a0, 1802(sp)
	sd	a0, 40(sp)
	lbu	a0, 1803(sp)
	sd	a0, 48(sp)
	lbu	a7, 1804(sp)
	lbu	a0, 1805(sp)
	sd	a0, 16(sp)
	lbu	a0, 1806(sp)
	sd	a0, 8(sp)
	lbu	s2, 1807(sp)
	lbu	s4, 1808(sp)
	lbu	s3, 1809(sp)
	lbu	s9, 1810(sp)
	lbu	s8, 1811(sp)
	lbu	t5, 1812(sp)
	lbu	s7, 1813(sp)
	lbu	t6, 1814(sp)
	lbu	a0, 1815(sp)
	lbu	ra, 1816(sp)
	lbu	a1, 1821(sp)
	sd	a1, 64(sp)
	lbu	a2, 1822(sp)
	lbu	a4, 1823(sp)
	lbu	a5, 1824(sp)
	lbu	s1, 1825(sp)
	lbu	a6, 1826(sp)
	lbu	a1, 1827(sp)
	lbu	s0, 1828(sp)
	slli	a4, a4, 8
	slli	a5, a5, 16
	slli	s1, s1, 24
	or	a4, a4, a2
	or	a5, a5, s1
	lbu	s1, 1829(sp)
	lbu	t4, 1830(sp)
	lbu	a2, 1831(sp)
	lbu	t0, 1832(sp)
	slli	a1, a1, 8
	slli	s0, s0, 16
	slli	s1, s1, 24
	or	a1, a1, a6
	or	s0, s0, s1
	or	a5, a5, a4
	or	a1, a1, s0
	lbu	t1, 1817(sp)
	lbu	t2, 1818(sp)
	lbu	a6, 1819(sp)
	lbu	a3, 1820(sp)
	sd	a3, 24(sp)
	slli	a1, a1, 32
	or	s10, a1, a5
	slli	a5, t0, 8
	or	a5, a5, a2
	j	.Lnoise_BB29_57
.Lnoise_BB29_40:
	srli	a0, s0, 16
	bnez	a0, .Lnoise_BB29_85
.Lnoise_BB29_41:
	addi	s6, sp, 2047
	addi	s6, s6, 97
	add	s3, s3, s10
	addi	s4, sp, 2047
	addi	s4, s4, 65
	addi	a0, sp, 2047
	addi	a0, a0, 945
	mv	a1, s4
	mv	a2, s3
	mv	a3, s0
	call	noise_noise_state_symmetric_hash_of_both
	addi	a0, sp, 2047
	addi	a0, a0, 929
	li	a3, 32
	mv	a1, s6
	mv	a2, s4
	mv	a4, s3
	mv	a5, s0
	call	noise_noise_state_cipher_CipherState_decrypt
	lbu	a0, 896(s11)
	beqz	a0, .Lnoise_BB29_50
	lbu	a0, 897(s11)
	addi	a0, a0, -1
	li	a1, 2
	bgeu	a0, a1, .Lnoise_BB29_85
.Lnoise_BB29_43:
	li	s11, 0
	li	t4, 0
	li	t3, 0
	li	a6, 0
	li	a1, 0
	li	a5, 0
	li	s6, 0
	li	s7, 0
	li	s8, 0
	li	a7, 0
	li	t5, 0
	li	t0, 0
	li	a4, 0
	sltiu	a2, s0, 16
	xori	s0, a2, 1
	j	.Lnoise_BB29_77
.Lnoise_BB29_44:
	lbu	a0, 1800(sp)
	li	a1, 1
	bne	a0, a1, .Lnoise_BB29_81
	sd	a4, 56(sp)
	lbu	a0, 1801(sp)
	sd	a0, 32(sp)
	lbu	a0, 1802(sp)
	sd	a0, 40(sp)
	lbu	a0, 1803(sp)
	sd	a0, 48(sp)
	lbu	a7, 1804(sp)
	lbu	a0, 1805(sp)
	sd	a0, 16(sp)
	lbu	a0, 1806(sp)
	sd	a0, 8(sp)
	lbu	s2, 1807(sp)
	lbu	s4, 1808(sp)
	lbu	s3, 1809(sp)
	lbu	s9, 1810(sp)
	lbu	s8, 1811(sp)
	lbu	t5, 1812(sp)
	lbu	s7, 1813(sp)
	lbu	t6, 1814(sp)
	lbu	a0, 1815(sp)
	lbu	ra, 1816(sp)
	lbu	a1, 1821(sp)
	sd	a1, 64(sp)
	lbu	a1, 1822(sp)
	lbu	a2, 1823(sp)
	lbu	a4, 1824(sp)
	lbu	a5, 1825(sp)
	lbu	a6, 1826(sp)
	lbu	t0, 1827(sp)
	lbu	s1, 1828(sp)
	slli	a2, a2, 8
	slli	a4, a4, 16
	slli	a5, a5, 24
	or	t2, a2, a1
	or	a4, a4, a5
	lbu	a2, 1829(sp)
	lbu	t4, 1830(sp)
	lbu	a5, 1831(sp)
	lbu	a1, 1832(sp)
	slli	t0, t0, 8
	slli	s1, s1, 16
	slli	a2, a2, 24
	or	s0, t0, a6
	or	a2, a2, s1
	or	s1, a4, t2
	or	a2, a2, s0
	lbu	t1, 1817(sp)
	lbu	t2, 1818(sp)
	lbu	a6, 1819(sp)
	lbu	a3, 1820(sp)
.Lnoise_BB29_46:
	sd	a3, 24(sp)
	slli	a2, a2, 32
	or	s10, a2, s1
	slli	a1, a1, 8
	or	a5, a5, a1
	li	t0, 1
	li	a1, 87
	srl	a1, a1, t3
	andi	a1, a1, 1
	bnez	a1, .Lnoise_BB29_59
	j	.Lnoise_BB29_60
.Lnoise_BB29_47:
	li	a0, 87
	srl	a0, a0, s4
	andi	a0, a0, 1
	beqz	a0, .Lnoise_BB29_69
	lbu	a0, 1800(sp)
	li	a1, 1
	bne	a0, a1, .Lnoise_BB29_74
	lbu	s8, 1801(sp)
	lbu	s7, 1802(sp)
	lbu	s6, 1803(sp)
	lbu	t2, 1804(sp)
	lbu	a1, 1805(sp)
	lbu	a2, 1806(sp)
	lbu	a3, 1807(sp)
	lbu	a6, 1808(sp)
	lbu	t1, 1809(sp)
	lbu	t4, 1810(sp)
	lbu	t6, 1811(sp)
	lbu	a4, 1812(sp)
	lbu	s1, 1813(sp)
	lbu	a0, 1814(sp)
	lbu	s0, 1815(sp)
	lbu	t5, 1816(sp)
	slli	a5, a1, 8
	slli	a2, a2, 16
	slli	a1, a3, 24
	or	s2, a5, t2
	or	s3, a1, a2
	lbu	a2, 1817(sp)
	lbu	a5, 1818(sp)
	lbu	a3, 1819(sp)
	lbu	t2, 1820(sp)
	slli	t1, t1, 8
	slli	t4, t4, 16
	slli	t6, t6, 24
	slli	s1, s1, 8
	slli	a0, a0, 16
	slli	s0, s0, 24
	or	a6, t1, a6
	or	t1, t6, t4
	or	t4, s1, a4
	or	t6, s0, a0
	lbu	s1, 1825(sp)
	lbu	s0, 1826(sp)
	lbu	a1, 1827(sp)
	lbu	a4, 1828(sp)
	slli	a2, a2, 8
	slli	a5, a5, 16
	slli	a3, a3, 24
	slli	s0, s0, 8
	slli	a1, a1, 16
	slli	a4, a4, 24
	or	t5, a2, t5
	or	a3, a3, a5
	or	s0, s0, s1
	or	a1, a1, a4
	lbu	a4, 1830(sp)
	lbu	a5, 1829(sp)
	lbu	s1, 1831(sp)
	lbu	a0, 1832(sp)
	slli	a4, a4, 8
	or	a4, a4, a5
	slli	s1, s1, 16
	slli	a0, a0, 24
	or	a0, a0, s1
	or	s2, s3, s2
	or	s1, t1, a6
	or	a2, t6, t4
	or	a3, a3, t5
	or	s0, s0, a1
	or	a0, a0, a4
	lbu	a1, 1821(sp)
	lbu	a6, 1822(sp)
	lbu	t3, 1823(sp)
	lbu	t4, 1824(sp)
	slli	s1, s1, 32
	slli	a4, a3, 32
	slli	a5, a0, 32
	or	a7, s1, s2
	or	t5, a4, a2
	or	s11, a5, s0
	j	.Lnoise_BB29_71
.Lnoise_BB29_50:
	addi	s0, sp, 1688
	ld	s3, 904(s11)
	addi	s7, sp, 1753
	addi	s2, sp, 1249
	addi	s6, sp, 1282
	addi	a1, sp, 2047
	addi	a1, a1, 945
	li	a2, 32
	mv	a0, s4
	call	memcpy
	lbu	a3, 64(s11)
	ld	s4, 1616(sp)
	lbu	a0, 1624(sp)
	lbu	a1, 1682(sp)
	lbu	s8, 1800(sp)
	lbu	a2, 1833(sp)
	sd	a2, 56(sp)
	lbu	a2, 1241(sp)
	add	s4, s4, a1
	sd	a3, 64(sp)
	addi	a1, a3, -1
	addi	a4, a0, 1
	seqz	a3, a1
	sd	s4, 1616(sp)
	sb	a4, 1624(sp)
	addi	a0, sp, 2047
	addi	a0, a0, 945
	addi	a1, sp, 936
	sd	a4, 48(sp)
	call	noise_noise_handshake_layout_lay_next
	ld	a0, 32(s11)
	ld	a1, 40(s11)
	ld	a2, 48(s11)
	ld	a3, 56(s11)
	sd	a0, 32(s0)
	sd	a1, 40(s0)
	sd	a2, 48(s0)
	sd	a3, 56(s0)
	ld	a0, 0(s11)
	ld	a1, 8(s11)
	ld	a2, 16(s11)
	ld	a3, 24(s11)
	sd	a0, 0(s0)
	sd	a1, 8(s0)
	sd	a2, 16(s0)
	sd	a3, 24(s0)
	li	a2, 47
	mv	a0, s7
	addi	a1, sp, 2047
	addi	a1, a1, 98
	call	memcpy
	li	a2, 32
	mv	a0, s2
	addi	a1, sp, 1801
	call	memcpy
	li	a2, 32
	mv	a0, s6
	mv	a1, s9
	call	memcpy
	ld	a0, 1608(sp)
	sd	a0, 40(sp)
	li	a1, 1
	sd	s10, 0(s5)
	sd	s3, 8(s5)
	mv	t0, s8
	bne	s8, a1, .Lnoise_BB29_61
	lbu	a6, 24(s2)
	lbu	a7, 25(s2)
	lbu	t5, 26(s2)
	lbu	a4, 27(s2)
	lbu	a5, 28(s2)
	lbu	a0, 29(s2)
	lbu	t1, 30(s2)
	lbu	t2, 31(s2)
	lbu	t3, 16(s2)
	lbu	t4, 17(s2)
	lbu	t6, 18(s2)
	lbu	a1, 19(s2)
	lbu	s7, 20(s2)
	lbu	a2, 21(s2)
	lbu	s3, 22(s2)
	lbu	s5, 23(s2)
	slli	a7, a7, 8
	slli	t5, t5, 16
	slli	a4, a4, 24
	slli	a0, a0, 8
	or	a6, a7, a6
	or	a7, a4, t5
	or	t5, a0, a5
	lbu	s8, 8(s2)
	lbu	s9, 9(s2)
	lbu	a5, 10(s2)
	lbu	a3, 11(s2)
	slli	t1, t1, 16
	slli	t2, t2, 24
	slli	t4, t4, 8
	slli	t6, t6, 16
	slli	a1, a1, 24
	slli	a2, a2, 8
	or	t1, t2, t1
	or	t2, t4, t3
	or	t3, a1, t6
	or	t4, a2, s7
	lbu	a1, 12(s2)
	lbu	a2, 13(s2)
	lbu	a0, 14(s2)
	lbu	a4, 15(s2)
	slli	s3, s3, 16
	slli	s5, s5, 24
	slli	s9, s9, 8
	slli	a5, a5, 16
	slli	a3, a3, 24
	slli	a2, a2, 8
	or	t6, s5, s3
	or	s3, s9, s8
	or	s7, a3, a5
	or	s5, a2, a1
	lbu	a2, 0(s2)
	lbu	a5, 1(s2)
	lbu	a1, 2(s2)
	lbu	a3, 3(s2)
	slli	a0, a0, 16
	slli	a4, a4, 24
	slli	a5, a5, 8
	slli	a1, a1, 16
	slli	a3, a3, 24
	or	s8, a4, a0
	or	s9, a5, a2
	or	s10, a3, a1
	lbu	a3, 5(s2)
	lbu	a4, 4(s2)
	lbu	a5, 6(s2)
	lbu	s0, 7(s2)
	slli	a3, a3, 8
	or	ra, a3, a4
	slli	a5, a5, 16
	slli	s0, s0, 24
	or	a5, a5, s0
	or	a4, a7, a6
	or	s0, t1, t5
	or	a0, t3, t2
	or	a2, t6, t4
	or	a1, s7, s3
	or	a3, s8, s5
	or	a6, s10, s9
	or	a5, a5, ra
	slli	s0, s0, 32
	or	a4, a4, s0
	slli	a2, a2, 32
	or	a0, a0, a2
	slli	a3, a3, 32
	or	a1, a1, a3
	slli	a5, a5, 32
	or	a2, a5, a6
	sd	a2, 1032(s11)
	sd	a1, 1040(s11)
	sd	a0, 1048(s11)
	sd	a4, 1056(s11)
	j	.Lnoise_BB29_62
.Lnoise_BB29_52:
	lbu	a0, 1800(sp)
	li	a1, 1
	bne	a0, a1, .Lnoise_BB29_74
	lbu	s8, 1801(sp)
	lbu	s7, 1802(sp)
	lbu	s6, 1803(sp)
	lbu	t2, 1804(sp)
	lbu	a1, 1805(sp)
	lbu	a2, 1806(sp)
	lbu	a3, 1807(sp)
	lbu	a6, 1808(sp)
	lbu	t1, 1809(sp)
	lbu	t4, 1810(sp)
	lbu	t6, 1811(sp)
	lbu	a4, 1812(sp)
	lbu	a5, 1813(sp)
	lbu	a0, 1814(sp)
	lbu	s1, 1815(sp)
	lbu	t5, 1816(sp)
	slli	s0, a1, 8
	slli	a2, a2, 16
	slli	a1, a3, 24
	or	s2, s0, t2
	or	s3, a1, a2
	lbu	a2, 1817(sp)
	lbu	s0, 1818(sp)
	lbu	a3, 1819(sp)
	lbu	t2, 1820(sp)
	slli	t1, t1, 8
	slli	t4, t4, 16
	slli	t6, t6, 24
	slli	a5, a5, 8
	slli	a0, a0, 16
	slli	s1, s1, 24
	or	a6, t1, a6
	or	t1, t6, t4
	or	t4, a5, a4
	or	t6, s1, a0
	lbu	a5, 1825(sp)
	lbu	s1, 1826(sp)
	lbu	a1, 1827(sp)
	lbu	a4, 1828(sp)
	slli	a2, a2, 8
	slli	s0, s0, 16
	slli	a3, a3, 24
	slli	s1, s1, 8
	slli	a1, a1, 16
	slli	a4, a4, 24
	or	t5, a2, t5
	or	a3, a3, s0
	or	a5, a5, s1
	or	a1, a1, a4
	lbu	a4, 1830(sp)
	lbu	s1, 1829(sp)
	lbu	s0, 1831(sp)
	lbu	a0, 1832(sp)
	slli	a4, a4, 8
	or	a4, a4, s1
	slli	s0, s0, 16
	slli	a0, a0, 24
	or	a0, a0, s0
	or	s2, s3, s2
	or	s0, t1, a6
	or	a2, t6, t4
	or	a3, a3, t5
	or	s1, a1, a5
	or	a0, a0, a4
	lbu	a1, 1821(sp)
	lbu	a6, 1822(sp)
	lbu	t3, 1823(sp)
	lbu	t4, 1824(sp)
.Lnoise_BB29_54:
	slli	s0, s0, 32
	slli	a4, a3, 32
	slli	a5, a0, 32
	or	a7, s0, s2
	or	t5, a4, a2
	or	s11, a5, s1
	li	t0, 1
	li	s0, 2
	li	a2, 87
	srl	a2, a2, s4
	andi	a2, a2, 1
	bnez	a2, .Lnoise_BB29_75
	j	.Lnoise_BB29_73
.Lnoise_BB29_55:
	lbu	a0, 1833(sp)
	li	a1, 1
	bne	a0, a1, .Lnoise_BB29_81
	lbu	a0, 1834(sp)
	sd	a0, 32(sp)
	lbu	a0, 1835(sp)
	sd	a0, 40(sp)
	lbu	a0, 1836(sp)
	sd	a0, 48(sp)
	lbu	a7, 1837(sp)
	lbu	a0, 1838(sp)
	sd	a0, 16(sp)
	lbu	a0, 1839(sp)
	sd	a0, 8(sp)
	lbu	s2, 1840(sp)
	lbu	s4, 1841(sp)
	lbu	s3, 1842(sp)
	lbu	s9, 1843(sp)
	lbu	s8, 1844(sp)
	lbu	t5, 1845(sp)
	lbu	s7, 1846(sp)
	lbu	t6, 1847(sp)
	lbu	a0, 1848(sp)
	lbu	ra, 1849(sp)
	lbu	a1, 1854(sp)
	sd	a1, 64(sp)
	lbu	a1, 1855(sp)
	lbu	a2, 1856(sp)
	lbu	a4, 1857(sp)
	lbu	a5, 1858(sp)
	lbu	a6, 1859(sp)
	lbu	t0, 1860(sp)
	lbu	s1, 1861(sp)
	slli	a2, a2, 8
	slli	a4, a4, 16
	slli	a5, a5, 24
	or	t2, a2, a1
	or	a4, a4, a5
	lbu	a2, 1862(sp)
	lbu	t4, 1863(sp)
	lbu	a5, 1864(sp)
	lbu	a1, 1865(sp)
	slli	t0, t0, 8
	slli	s1, s1, 16
	slli	a2, a2, 24
	or	s0, t0, a6
	or	a2, a2, s1
	or	s1, a4, t2
	or	a2, a2, s0
	lbu	t1, 1850(sp)
	lbu	t2, 1851(sp)
	lbu	a6, 1852(sp)
	lbu	a3, 1853(sp)
	sd	a3, 24(sp)
	slli	a2, a2, 32
	or	s10, a2, s1
	slli	a1, a1, 8
	or	a5, a5, a1
.Lnoise_BB29_57:
	andi	a1, t3, 254
	li	a2, 4
	bne	a1, a2, .Lnoise_BB29_59
	li	t0, 1
	j	.Lnoise_BB29_60
.Lnoise_BB29_59:
	li	t0, 0
.Lnoise_BB29_60:
	sd	s10, 896(s11)
	lbu	a1, 898(s11)
	lbu	a2, 897(s11)
	lbu	a3, 899(s11)
	lbu	a4, 900(s11)
	slli	a1, a1, 8
	or	a1, a1, a2
	lbu	a2, 901(s11)
	lbu	s0, 902(s11)
	slli	a3, a3, 16
	slli	a4, a4, 24
	or	a3, a3, a4
	lbu	a4, 903(s11)
	slli	s0, s0, 8
	or	a2, a2, s0
	slli	s0, t4, 24
	slli	a4, a4, 16
	or	a4, a4, s0
	or	a1, a1, a3
	or	a2, a2, a4
	slli	a2, a2, 32
	or	t3, a2, a1
	sd	t3, 872(s11)
	sh	a5, 880(s11)
	sb	t4, 904(s11)
	lhu	a2, 874(s11)
	lhu	a3, 876(s11)
	lhu	a4, 878(s11)
	slli	a5, a5, 48
	srli	t4, t3, 8
	slli	a3, a3, 16
	slli	a4, a4, 32
	or	a2, a2, a3
	or	a4, a4, a5
	or	s11, a4, a2
	ld	a5, 24(sp)
	ld	a1, 16(sp)
	ld	a2, 8(sp)
	mv	a3, s2
	mv	s2, s4
	mv	s4, s7
	mv	s7, t6
	mv	a4, a0
	mv	s1, s9
	mv	s9, s8
	j	.Lnoise_BB29_79
.Lnoise_BB29_61:
	sd	zero, 1032(s11)
	sd	zero, 1040(s11)
	sd	zero, 1048(s11)
	sd	zero, 1056(s11)
.Lnoise_BB29_62:
	ld	a0, 40(sp)
	sub	s4, a0, s4
	lbu	s7, 1625(sp)
	ld	s3, 1792(sp)
	addi	s5, sp, 1720
	sb	t0, 491(s1)
	addi	a0, s1, 492
	addi	a1, sp, 2047
	addi	a1, a1, 1065
	li	a2, 32
	call	memcpy
	li	a0, 1
	ld	a1, 56(sp)
	bne	a1, a0, .Lnoise_BB29_64
	lbu	t0, 24(s6)
	lbu	t2, 25(s6)
	lbu	t4, 26(s6)
	lbu	a3, 27(s6)
	lbu	a4, 28(s6)
	lbu	a5, 29(s6)
	lbu	a6, 30(s6)
	lbu	a7, 31(s6)
	lbu	t1, 16(s6)
	lbu	t3, 17(s6)
	lbu	s0, 18(s6)
	lbu	a1, 19(s6)
	lbu	s8, 20(s6)
	lbu	a2, 21(s6)
	lbu	t5, 22(s6)
	lbu	t6, 23(s6)
	slli	t2, t2, 8
	slli	t4, t4, 16
	slli	a3, a3, 24
	slli	a5, a5, 8
	or	t0, t2, t0
	or	t2, a3, t4
	or	t4, a5, a4
	lbu	s9, 8(s6)
	lbu	a4, 9(s6)
	lbu	a5, 10(s6)
	lbu	a0, 11(s6)
	slli	a6, a6, 16
	slli	a7, a7, 24
	slli	t3, t3, 8
	slli	s0, s0, 16
	slli	a1, a1, 24
	slli	a2, a2, 8
	or	a6, a7, a6
	or	a7, t3, t1
	or	t1, a1, s0
	or	t3, a2, s8
	lbu	a2, 12(s6)
	lbu	a1, 13(s6)
	lbu	s0, 14(s6)
	lbu	a3, 15(s6)
	slli	t5, t5, 16
	slli	t6, t6, 24
	slli	a4, a4, 8
	slli	a5, a5, 16
	slli	a0, a0, 24
	slli	a1, a1, 8
	or	t5, t6, t5
	or	t6, a4, s9
	or	s8, a0, a5
	or	s9, a1, a2
	lbu	a2, 0(s6)
	lbu	a5, 1(s6)
	lbu	a4, 2(s6)
	lbu	a0, 3(s6)
	slli	s0, s0, 16
	slli	a3, a3, 24
	slli	a5, a5, 8
	slli	a4, a4, 16
	slli	a0, a0, 24
	or	ra, a3, s0
	or	s10, a5, a2
	or	a0, a0, a4
	lbu	a4, 5(s6)
	lbu	a5, 4(s6)
	lbu	s0, 6(s6)
	lbu	a1, 7(s6)
	slli	a4, a4, 8
	or	s6, a4, a5
	slli	s0, s0, 16
	slli	a1, a1, 24
	or	a1, a1, s0
	or	a5, t2, t0
	or	s0, a6, t4
	or	a6, t1, a7
	or	a3, t5, t3
	or	a4, s8, t6
	or	a2, ra, s9
	or	a0, a0, s10
	or	a1, a1, s6
	slli	s0, s0, 32
	or	a5, a5, s0
	slli	a3, a3, 32
	or	a3, a3, a6
	slli	a2, a2, 32
	or	a2, a2, a4
	slli	a1, a1, 32
	or	a0, a0, a1
	sd	a0, 0(s11)
	sd	a2, 8(s11)
	sd	a3, 16(s11)
	sd	a5, 24(s11)
	j	.Lnoise_BB29_65
.Lnoise_BB29_64:
	sd	zero, 0(s11)
	sd	zero, 8(s11)
	sd	zero, 16(s11)
	sd	zero, 24(s11)
.Lnoise_BB29_65:
	ld	a0, 56(sp)
	sb	a0, 524(s1)
	ld	a0, 0(s11)
	ld	a1, 8(s11)
	ld	a2, 16(s11)
	ld	a3, 24(s11)
	sd	a0, 1032(s11)
	sd	a1, 1040(s11)
	sd	a2, 1048(s11)
	sd	a3, 1056(s11)
	addi	a0, s1, 525
	addi	a1, sp, 2047
	addi	a1, a1, 1065
	li	a2, 32
	call	memcpy
	sb	s4, 557(s1)
	sb	s7, 423(s1)
	ld	a0, 48(sp)
	sb	a0, 424(s1)
	addi	a0, s1, 1367
	li	a2, 32
	addi	a1, sp, 1688
	call	memcpy
	addi	a0, s1, 1399
	li	a2, 32
	mv	a1, s5
	call	memcpy
	li	a0, 1
	ld	a1, 64(sp)
	bne	a1, a0, .Lnoise_BB29_67
	addi	s0, sp, 1753
	lbu	t0, 24(s0)
	lbu	t2, 25(s0)
	lbu	t4, 26(s0)
	lbu	a3, 27(s0)
	lbu	a4, 28(s0)
	lbu	a5, 29(s0)
	lbu	a6, 30(s0)
	lbu	a7, 31(s0)
	lbu	t1, 16(s0)
	lbu	t3, 17(s0)
	lbu	s2, 18(s0)
	lbu	a1, 19(s0)
	lbu	s4, 20(s0)
	lbu	a2, 21(s0)
	lbu	t5, 22(s0)
	lbu	t6, 23(s0)
	slli	t2, t2, 8
	slli	t4, t4, 16
	slli	a3, a3, 24
	slli	a5, a5, 8
	or	t0, t2, t0
	or	t2, a3, t4
	or	t4, a5, a4
	lbu	s5, 8(s0)
	lbu	a4, 9(s0)
	lbu	a5, 10(s0)
	lbu	a0, 11(s0)
	slli	a6, a6, 16
	slli	a7, a7, 24
	slli	t3, t3, 8
	slli	s2, s2, 16
	slli	a1, a1, 24
	slli	a2, a2, 8
	or	a6, a7, a6
	or	a7, t3, t1
	or	t1, a1, s2
	or	t3, a2, s4
	lbu	a2, 12(s0)
	lbu	a1, 13(s0)
	lbu	s2, 14(s0)
	lbu	a3, 15(s0)
	slli	t5, t5, 16
	slli	t6, t6, 24
	slli	a4, a4, 8
	slli	a5, a5, 16
	slli	a0, a0, 24
	slli	a1, a1, 8
	or	t5, t6, t5
	or	t6, a4, s5
	or	s4, a0, a5
	or	s5, a1, a2
	lbu	a2, 0(s0)
	lbu	a5, 1(s0)
	lbu	a4, 2(s0)
	lbu	a0, 3(s0)
	slli	s2, s2, 16
	slli	a3, a3, 24
	slli	a5, a5, 8
	slli	a4, a4, 16
	slli	a0, a0, 24
	or	s7, a3, s2
	or	s6, a5, a2
	or	s8, a0, a4
	lbu	a4, 5(s0)
	lbu	a5, 4(s0)
	lbu	a0, 6(s0)
	lbu	a1, 7(s0)
	slli	a4, a4, 8
	or	s2, a4, a5
	slli	s0, a0, 16
	slli	a1, a1, 24
	or	a1, a1, s0
	or	a5, t2, t0
	or	s0, a6, t4
	or	a2, t1, a7
	or	a3, t5, t3
	or	a0, s4, t6
	or	a4, s7, s5
	or	a6, s8, s6
	or	a1, a1, s2
	slli	s0, s0, 32
	or	a5, a5, s0
	slli	a3, a3, 32
	or	a2, a2, a3
	slli	a4, a4, 32
	or	a0, a0, a4
	slli	a1, a1, 32
	or	a1, a1, a6
	sd	a1, 0(s11)
	sd	a0, 8(s11)
	sd	a2, 16(s11)
	sd	a5, 24(s11)
	j	.Lnoise_BB29_68
.Lnoise_BB29_67:
	sd	zero, 0(s11)
	sd	zero, 8(s11)
	sd	zero, 16(s11)
	sd	zero, 24(s11)
.Lnoise_BB29_68:
	ld	a0, 64(sp)
	sb	a0, 1431(s1)
	ld	a0, 0(s11)
	ld	a1, 8(s11)
	ld	a2, 16(s11)
	ld	a3, 24(s11)
	sd	a0, 1032(s11)
	sd	a1, 1040(s11)
	sd	a2, 1048(s11)
	sd	a3, 1056(s11)
	addi	a0, s1, 1432
	addi	a1, sp, 2047
	addi	a1, a1, 1065
	li	a2, 32
	call	memcpy
	li	a0, 0
	sd	s3, 1464(s1)
	j	.Lnoise_BB29_9
.Lnoise_BB29_69:
	lbu	a0, 1833(sp)
	li	a1, 1
	bne	a0, a1, .Lnoise_BB29_74
	lbu	s8, 1834(sp)
	lbu	s7, 1835(sp)
	lbu	s6, 1836(sp)
	lbu	t2, 1837(sp)
	lbu	a1, 1838(sp)
	lbu	a2, 1839(sp)
	lbu	a3, 1840(sp)
	lbu	a6, 1841(sp)
	lbu	t1, 1842(sp)
	lbu	t4, 1843(sp)
	lbu	t6, 1844(sp)
	lbu	a4, 1845(sp)
	lbu	a5, 1846(sp)
	lbu	a0, 1847(sp)
	lbu	s1, 1848(sp)
	lbu	t5, 1849(sp)
	slli	s0, a1, 8
	slli	a2, a2, 16
	slli	a1, a3, 24
	or	s2, s0, t2
	or	s3, a1, a2
	lbu	a2, 1850(sp)
	lbu	s0, 1851(sp)
	lbu	a3, 1852(sp)
	lbu	t2, 1853(sp)
	slli	t1, t1, 8
	slli	t4, t4, 16
	slli	t6, t6, 24
	slli	a5, a5, 8
	slli	a0, a0, 16
	slli	s1, s1, 24
	or	a6, t1, a6
	or	t1, t6, t4
	or	t4, a5, a4
	or	t6, s1, a0
	lbu	a5, 1858(sp)
	lbu	s1, 1859(sp)
	lbu	a1, 1860(sp)
	lbu	a4, 1861(sp)
	slli	a2, a2, 8
	slli	s0, s0, 16
	slli	a3, a3, 24
	slli	s1, s1, 8
	slli	a1, a1, 16
	slli	a4, a4, 24
	or	t5, a2, t5
	or	a3, a3, s0
	or	a5, a5, s1
	or	a1, a1, a4
	lbu	a4, 1863(sp)
	lbu	s1, 1862(sp)
	lbu	s0, 1864(sp)
	lbu	a0, 1865(sp)
	slli	a4, a4, 8
	or	a4, a4, s1
	slli	s0, s0, 16
	slli	a0, a0, 24
	or	a0, a0, s0
	or	s2, s3, s2
	or	s0, t1, a6
	or	a2, t6, t4
	or	a3, a3, t5
	or	s1, a1, a5
	or	a0, a0, a4
	lbu	a1, 1854(sp)
	lbu	a6, 1855(sp)
	lbu	t3, 1856(sp)
	lbu	t4, 1857(sp)
	slli	s0, s0, 32
	slli	a4, a3, 32
	slli	a5, a0, 32
	or	a7, s0, s2
	or	t5, a4, a2
	or	s11, a5, s1
.Lnoise_BB29_71:
	andi	a2, s4, 254
	li	a4, 4
	bne	a2, a4, .Lnoise_BB29_75
	li	t0, 1
	li	s0, 2
.Lnoise_BB29_73:
	mv	s2, s10
	li	a4, 1
	j	.Lnoise_BB29_76
.Lnoise_BB29_74:
	li	s11, 0
	li	t4, 0
	li	t3, 0
	li	a6, 0
	li	a1, 0
	li	a5, 0
	li	s6, 0
	li	s7, 0
	li	s8, 0
	li	a7, 0
	li	t5, 0
	li	t0, 0
	li	a4, 0
	li	s0, 2
	mv	s2, s10
	j	.Lnoise_BB29_77
.Lnoise_BB29_75:
	li	t0, 0
	li	a4, 1
	li	s0, 2
	mv	s2, s10
.Lnoise_BB29_76:
	mv	a5, t2
.Lnoise_BB29_77:
	mv	a2, s2
	beqz	a4, .Lnoise_BB29_81
	mv	s10, a6
	sd	a1, 64(sp)
	sd	s8, 32(sp)
	sd	s7, 40(sp)
	sd	s6, 48(sp)
	srli	a1, a7, 8
	srli	a2, a7, 16
	srli	a3, a7, 24
	srli	s2, a7, 32
	srli	s3, a7, 40
	srli	s1, a7, 48
	srli	s9, a7, 56
	srli	s4, t5, 8
	srli	s7, t5, 16
	srli	a4, t5, 24
	srli	ra, t5, 32
	srli	t1, t5, 40
	srli	t2, t5, 48
	srli	a6, t5, 56
	li	a0, 1
	sd	a0, 56(sp)
.Lnoise_BB29_79:
	slli	a0, t5, 56
	slli	s8, s9, 48
	zext.b	s6, s1
	zext.b	s3, s3
	zext.b	t6, s2
	zext.b	s1, a3
	zext.b	s0, a2
	zext.b	t5, a1
	slli	a5, a5, 56
	slli	a6, a6, 48
	zext.b	t2, t2
	zext.b	a2, t1
	zext.b	a3, ra
	zext.b	a4, a4
	zext.b	a1, s7
	zext.b	t1, s4
	or	a0, a0, s8
	slli	s6, s6, 40
	slli	s3, s3, 32
	slli	t6, t6, 24
	slli	s2, s1, 16
	slli	s0, s0, 8
	or	a5, a5, a6
	slli	t2, t2, 40
	slli	a2, a2, 32
	slli	a3, a3, 24
	slli	a4, a4, 16
	slli	a1, a1, 8
	or	a0, a0, s6
	or	s1, s3, t6
	or	s0, s2, s0
	or	a5, a5, t2
	or	a2, a2, a3
	or	a1, a1, a4
	or	a0, a0, s1
	or	a4, s0, t5
	or	a2, a2, a5
	or	a1, a1, t1
	or	a4, a4, a0
	or	a0, a2, a1
	ld	a1, 56(sp)
	beqz	a1, .Lnoise_BB29_82
	sb	t0, 17(s5)
	ld	a1, 32(sp)
	sb	a1, 18(s5)
	ld	a1, 40(sp)
	sb	a1, 19(s5)
	ld	a1, 48(sp)
	sb	a1, 20(s5)
	srli	a6, a4, 56
	srli	t1, a4, 48
	srli	t6, a4, 40
	srli	s4, a4, 32
	srli	s1, a4, 24
	srli	t2, a4, 16
	srli	s3, a4, 8
	srli	t0, a0, 56
	srli	t5, a0, 48
	srli	s7, a0, 40
	srli	a1, a0, 32
	srli	a3, a0, 24
	srli	s2, a0, 16
	srli	a2, a0, 8
	srli	a5, s11, 56
	srli	s6, s11, 48
	srli	s0, s11, 40
	sb	s1, 25(s5)
	sb	s4, 26(s5)
	sb	t6, 27(s5)
	sb	t1, 28(s5)
	srli	s1, s11, 32
	sb	a7, 21(s5)
	sb	a4, 22(s5)
	sb	s3, 23(s5)
	sb	t2, 24(s5)
	srli	a4, s11, 24
	sb	a3, 33(s5)
	sb	a1, 34(s5)
	sb	s7, 35(s5)
	sb	t5, 36(s5)
	srli	a1, s11, 16
	sb	a6, 29(s5)
	sb	a0, 30(s5)
	sb	a2, 31(s5)
	sb	s2, 32(s5)
	srli	a0, s11, 8
	sb	t0, 37(s5)
	ld	a2, 64(sp)
	sb	a2, 38(s5)
	sb	s10, 39(s5)
	sb	t3, 40(s5)
	sb	a5, 49(s5)
	sb	a4, 45(s5)
	sb	s1, 46(s5)
	sb	s0, 47(s5)
	sb	s6, 48(s5)
	sb	t4, 41(s5)
	sb	s11, 42(s5)
	sb	a0, 43(s5)
	sb	a1, 44(s5)
	li	a0, 20
	j	.Lnoise_BB29_9
.Lnoise_BB29_81:
	zext.b	a0, s0
.Lnoise_pcrel_hi22:
	auipc	a1, %pcrel_hi(noise_Lnoise_switch_table_noise_c_messages_read_next)
	slli	a0, a0, 2
	addi	a1, a1, %pcrel_lo(.Lnoise_pcrel_hi22)
	add	a0, a0, a1
	lw	a0, 0(a0)
	sb	a2, 16(s5)
	j	.Lnoise_BB29_9
.Lnoise_BB29_82:
	li	a1, 1
	ld	a2, 48(sp)
	ld	a3, 40(sp)
	ld	a5, 32(sp)
	mv	s0, s10
	beq	t0, a1, .Lnoise_BB29_84
	li	s11, 0
	li	t4, 0
	li	t3, 0
	li	s0, 0
	sd	zero, 64(sp)
	li	a0, 0
	li	a4, 0
	li	a7, 0
	li	a2, 0
	li	a3, 0
	li	a5, 0
.Lnoise_BB29_84:
	sb	a5, 18(s5)
	sb	a3, 19(s5)
	sb	a2, 20(s5)
	sb	a7, 21(s5)
	srli	a6, a4, 56
	srli	a7, a4, 48
	srli	t5, a4, 40
	srli	s6, a4, 32
	srli	t1, a4, 24
	srli	t6, a4, 16
	srli	s4, a4, 8
	srli	t2, a0, 56
	srli	s3, a0, 48
	srli	s7, a0, 40
	srli	s10, a0, 32
	srli	s2, a0, 24
	srli	s8, a0, 16
	srli	ra, a0, 8
	ld	a1, 64(sp)
	sb	a1, 38(s5)
	sb	s0, 39(s5)
	sb	t3, 40(s5)
	sb	t4, 41(s5)
	srli	a1, s11, 56
	srli	a5, s11, 48
	srli	a2, s11, 40
	sb	t0, 50(s5)
	srli	s0, s11, 32
	sb	s6, 26(s5)
	sb	t5, 27(s5)
	sb	a7, 28(s5)
	sb	a6, 29(s5)
	srli	a3, s11, 24
	sb	a4, 22(s5)
	sb	s4, 23(s5)
	sb	t6, 24(s5)
	sb	t1, 25(s5)
	srli	a4, s11, 16
	sb	s10, 34(s5)
	sb	s7, 35(s5)
	sb	s3, 36(s5)
	sb	t2, 37(s5)
	srli	s1, s11, 8
	sb	a0, 30(s5)
	sb	ra, 31(s5)
	sb	s8, 32(s5)
	sb	s2, 33(s5)
	sb	s0, 46(s5)
	sb	a2, 47(s5)
	sb	a5, 48(s5)
	sb	a1, 49(s5)
	sb	s11, 42(s5)
	sb	s1, 43(s5)
	sb	a4, 44(s5)
	sb	a3, 45(s5)
	li	a0, 40
	j	.Lnoise_BB29_9
.Lnoise_BB29_85:
	unimp
.Lnoise_func_end29:
	.size	noise_noise_c_messages_read_next, .Lnoise_func_end29-noise_noise_c_messages_read_next
	.cfi_endproc

	.section	".text.noise_handshake::layout::psk_after","ax",@progbits
	.p2align	1
	.type	noise_noise_handshake_layout_psk_after,@function
noise_noise_handshake_layout_psk_after:
	.cfi_startproc
	addi	sp, sp, -16
	.cfi_def_cfa_offset 16
	sd	ra, 8(sp)
	.cfi_offset ra, -8
	.cfi_remember_state
	beqz	a1, .Lnoise_BB30_5
	lbu	a3, 0(a0)
	addi	a0, a0, 4
	li	a4, 6
	addi	a1, a1, -1
	bne	a3, a4, .Lnoise_BB30_4
	beqz	a2, .Lnoise_BB30_6
	addi	a2, a2, -1
.Lnoise_BB30_4:
	call	noise_noise_handshake_layout_psk_after
	addi	a1, a1, 1
	slli	a2, a0, 63
	srai	a2, a2, 63
	and	a1, a1, a2
	ld	ra, 8(sp)
	.cfi_restore ra
	addi	sp, sp, 16
	.cfi_def_cfa_offset 0
	ret
.Lnoise_BB30_5:
	.cfi_restore_state
	.cfi_remember_state
	li	a0, 0
	ld	ra, 8(sp)
	.cfi_restore ra
	addi	sp, sp, 16
	.cfi_def_cfa_offset 0
	ret
.Lnoise_BB30_6:
	.cfi_restore_state
	li	a1, 0
	li	a0, 1
	ld	ra, 8(sp)
	.cfi_restore ra
	addi	sp, sp, 16
	.cfi_def_cfa_offset 0
	ret
.Lnoise_func_end30:
	.size	noise_noise_handshake_layout_psk_after, .Lnoise_func_end30-noise_noise_handshake_layout_psk_after
	.cfi_endproc

	.section	".text.noise_handshake::reader::read_tokens::<#3dfcfe118667ed30>","ax",@progbits
	.p2align	1
	.type	noise_noise_handshake_reader_read_tokens_3dfcfe118667ed30,@function
noise_noise_handshake_reader_read_tokens_3dfcfe118667ed30:
	.cfi_startproc
	addi	sp, sp, -944
	.cfi_def_cfa_offset 944
	sd	ra, 936(sp)
	sd	s0, 928(sp)
	sd	s1, 920(sp)
	sd	s2, 912(sp)
	sd	s3, 904(sp)
	sd	s4, 896(sp)
	sd	s5, 888(sp)
	sd	s6, 880(sp)
	sd	s7, 872(sp)
	sd	s8, 864(sp)
	sd	s9, 856(sp)
	sd	s10, 848(sp)
	sd	s11, 840(sp)
	.cfi_offset ra, -8
	.cfi_offset s0, -16
	.cfi_offset s1, -24
	.cfi_offset s2, -32
	.cfi_offset s3, -40
	.cfi_offset s4, -48
	.cfi_offset s5, -56
	.cfi_offset s6, -64
	.cfi_offset s7, -72
	.cfi_offset s8, -80
	.cfi_offset s9, -88
	.cfi_offset s10, -96
	.cfi_offset s11, -104
	.cfi_remember_state
	mv	s3, a0
	sw	zero, 176(sp)
	sh	zero, 180(sp)
	sb	zero, 182(sp)
	sd	zero, 152(sp)
	sd	zero, 160(sp)
	sd	zero, 168(sp)
	sw	zero, 144(sp)
	sh	zero, 148(sp)
	sb	zero, 150(sp)
	sw	zero, 136(sp)
	sh	zero, 140(sp)
	sb	zero, 142(sp)
	beqz	a7, .Lnoise_BB31_7
	lhu	s0, 2(a6)
	lhu	a0, 0(a6)
	slli	s1, s0, 16
	or	s10, s1, a0
	zext.b	s2, s10
	li	s1, 1
	bge	s1, s2, .Lnoise_BB31_8
	addi	a0, s2, -2
	li	s1, 4
	bgeu	a0, s1, .Lnoise_BB31_20
	lbu	a0, 32(a3)
	beqz	a0, .Lnoise_BB31_11
	andi	a0, s2, 254
	li	s1, 4
	bne	a0, s1, .Lnoise_BB31_15
	lbu	a0, 33(a2)
	li	s1, 1
	bne	a0, s1, .Lnoise_BB31_30
	lbu	t0, 58(a2)
	lbu	t1, 59(a2)
	lbu	s5, 60(a2)
	lbu	a0, 61(a2)
	lbu	t2, 62(a2)
	lbu	t5, 63(a2)
	lbu	t6, 64(a2)
	lbu	s2, 65(a2)
	lbu	s4, 50(a2)
	lbu	s6, 51(a2)
	lbu	ra, 52(a2)
	lbu	s1, 53(a2)
	lbu	s7, 54(a2)
	lbu	s8, 55(a2)
	lbu	s9, 56(a2)
	lbu	s11, 57(a2)
	slli	t1, t1, 8
	slli	s5, s5, 16
	slli	a0, a0, 24
	or	s0, t1, t0
	sd	s0, 128(sp)
	or	t1, a0, s5
	lbu	s5, 42(a2)
	lbu	t0, 43(a2)
	lbu	s0, 44(a2)
	lbu	a0, 45(a2)
	slli	t5, t5, 8
	slli	t6, t6, 16
	slli	s2, s2, 24
	slli	s6, s6, 8
	slli	ra, ra, 16
	slli	s1, s1, 24
	or	t2, t5, t2
	or	t6, s2, t6
	or	t5, s6, s4
	or	s2, s1, ra
	lbu	s4, 46(a2)
	lbu	s6, 47(a2)
	lbu	ra, 48(a2)
	lbu	s1, 49(a2)
	slli	s8, s8, 8
	slli	s9, s9, 16
	slli	s11, s11, 24
	slli	t0, t0, 8
	slli	s0, s0, 16
	slli	a0, a0, 24
	or	s7, s8, s7
	or	s8, s11, s9
	or	t0, t0, s5
	or	s5, a0, s0
	lbu	s9, 34(a2)
	lbu	s11, 35(a2)
	lbu	s0, 36(a2)
	lbu	a0, 37(a2)
	slli	s6, s6, 8
	slli	ra, ra, 16
	slli	s1, s1, 24
	slli	s11, s11, 8
	slli	s0, s0, 16
	slli	a0, a0, 24
	or	s4, s6, s4
	or	ra, s1, ra
	or	s6, s11, s9
	or	s9, a0, s0
	lbu	s11, 39(a2)
	lbu	s1, 38(a2)
	lbu	a0, 40(a2)
	lbu	s0, 41(a2)
	j	.Lnoise_BB31_17
.Lnoise_BB31_7:
	li	a2, 24
	mv	a0, s3
	li	a1, 0
	ld	ra, 936(sp)
	ld	s0, 928(sp)
	ld	s1, 920(sp)
	ld	s2, 912(sp)
	ld	s3, 904(sp)
	ld	s4, 896(sp)
	ld	s5, 888(sp)
	ld	s6, 880(sp)
	ld	s7, 872(sp)
	ld	s8, 864(sp)
	ld	s9, 856(sp)
	ld	s10, 848(sp)
	ld	s11, 840(sp)
	.cfi_restore ra
	.cfi_restore s0
	.cfi_restore s1
	.cfi_restore s2
	.cfi_restore s3
	.cfi_restore s4
	.cfi_restore s5
	.cfi_restore s6
	.cfi_restore s7
	.cfi_restore s8
	.cfi_restore s9
	.cfi_restore s10
	.cfi_restore s11
	addi	sp, sp, 944
	.cfi_def_cfa_offset 0
	tail	memset
.Lnoise_BB31_8:
	.cfi_restore_state
	.cfi_remember_state
	add	s11, t3, s0
	sub	s1, t4, s0
	bnez	s2, .Lnoise_BB31_18
	li	s2, 32
	bgeu	s1, s2, .Lnoise_BB31_35
	li	s2, 0
	li	a0, 1
	bnez	a0, .Lnoise_BB31_36
	j	.Lnoise_BB31_28
.Lnoise_BB31_11:
	li	a0, 3
	blt	a0, s2, .Lnoise_BB31_21
	li	a0, 2
	beq	s2, a0, .Lnoise_BB31_22
.Lnoise_BB31_13:
	lbu	a0, 33(a2)
	li	s1, 1
	bne	a0, s1, .Lnoise_BB31_30
	lbu	t0, 58(a2)
	lbu	t1, 59(a2)
	lbu	s6, 60(a2)
	lbu	a0, 61(a2)
	lbu	t2, 62(a2)
	lbu	t5, 63(a2)
	lbu	t6, 64(a2)
	lbu	s4, 65(a2)
	lbu	s5, 50(a2)
	lbu	s7, 51(a2)
	lbu	ra, 52(a2)
	lbu	s1, 53(a2)
	lbu	s8, 54(a2)
	lbu	s9, 55(a2)
	lbu	s10, 56(a2)
	lbu	s11, 57(a2)
	slli	t1, t1, 8
	slli	s6, s6, 16
	slli	a0, a0, 24
	or	s0, t1, t0
	sd	s0, 128(sp)
	or	t1, a0, s6
	lbu	s6, 42(a2)
	lbu	t0, 43(a2)
	lbu	s0, 44(a2)
	lbu	a0, 45(a2)
	slli	t5, t5, 8
	slli	t6, t6, 16
	slli	s4, s4, 24
	slli	s7, s7, 8
	slli	ra, ra, 16
	slli	s1, s1, 24
	or	t2, t5, t2
	or	t6, s4, t6
	or	t5, s7, s5
	or	s4, s1, ra
	lbu	s5, 46(a2)
	lbu	s7, 47(a2)
	lbu	ra, 48(a2)
	lbu	s1, 49(a2)
	slli	s9, s9, 8
	slli	s10, s10, 16
	slli	s11, s11, 24
	slli	t0, t0, 8
	slli	s0, s0, 16
	slli	a0, a0, 24
	or	s8, s9, s8
	or	s9, s11, s10
	or	t0, t0, s6
	or	s6, a0, s0
	lbu	s10, 34(a2)
	lbu	s11, 35(a2)
	lbu	s0, 36(a2)
	lbu	a0, 37(a2)
	slli	s7, s7, 8
	slli	ra, ra, 16
	slli	s1, s1, 24
	slli	s11, s11, 8
	slli	s0, s0, 16
	slli	a0, a0, 24
	or	s5, s7, s5
	or	ra, s1, ra
	or	s7, s11, s10
	or	s10, a0, s0
	lbu	s11, 39(a2)
	lbu	s1, 38(a2)
	lbu	a0, 40(a2)
	lbu	s0, 41(a2)
	j	.Lnoise_BB31_24
.Lnoise_BB31_15:
	lbu	a0, 0(a2)
	li	s1, 1
	bne	a0, s1, .Lnoise_BB31_30
	lbu	t0, 25(a2)
	lbu	t1, 26(a2)
	lbu	s5, 27(a2)
	lbu	a0, 28(a2)
	lbu	t2, 29(a2)
	lbu	t5, 30(a2)
	lbu	t6, 31(a2)
	lbu	s2, 32(a2)
	lbu	s4, 17(a2)
	lbu	s6, 18(a2)
	lbu	ra, 19(a2)
	lbu	s1, 20(a2)
	lbu	s7, 21(a2)
	lbu	s8, 22(a2)
	lbu	s9, 23(a2)
	lbu	s11, 24(a2)
	slli	t1, t1, 8
	slli	s5, s5, 16
	slli	a0, a0, 24
	or	s0, t1, t0
	sd	s0, 128(sp)
	or	t1, a0, s5
	lbu	s5, 9(a2)
	lbu	t0, 10(a2)
	lbu	s0, 11(a2)
	lbu	a0, 12(a2)
	slli	t5, t5, 8
	slli	t6, t6, 16
	slli	s2, s2, 24
	slli	s6, s6, 8
	slli	ra, ra, 16
	slli	s1, s1, 24
	or	t2, t5, t2
	or	t6, s2, t6
	or	t5, s6, s4
	or	s2, s1, ra
	lbu	s4, 13(a2)
	lbu	s6, 14(a2)
	lbu	ra, 15(a2)
	lbu	s1, 16(a2)
	slli	s8, s8, 8
	slli	s9, s9, 16
	slli	s11, s11, 24
	slli	t0, t0, 8
	slli	s0, s0, 16
	slli	a0, a0, 24
	or	s7, s8, s7
	or	s8, s11, s9
	or	t0, t0, s5
	or	s5, a0, s0
	lbu	s9, 1(a2)
	lbu	s11, 2(a2)
	lbu	s0, 3(a2)
	lbu	a0, 4(a2)
	slli	s6, s6, 8
	slli	ra, ra, 16
	slli	s1, s1, 24
	slli	s11, s11, 8
	slli	s0, s0, 16
	slli	a0, a0, 24
	or	s4, s6, s4
	or	ra, s1, ra
	or	s6, s11, s9
	or	s9, a0, s0
	lbu	s11, 6(a2)
	lbu	s1, 5(a2)
	lbu	a0, 7(a2)
	lbu	s0, 8(a2)
.Lnoise_BB31_17:
	slli	s11, s11, 8
	or	s11, s11, s1
	slli	a0, a0, 16
	slli	s0, s0, 24
	or	a0, a0, s0
	ld	s0, 128(sp)
	or	s0, t1, s0
	or	s1, t6, t2
	or	t1, s2, t5
	or	t2, s8, s7
	or	t0, s5, t0
	or	t5, ra, s4
	or	t6, s9, s6
	or	a0, a0, s11
	slli	s1, s1, 32
	or	s2, s1, s0
	slli	t2, t2, 32
	or	s1, t2, t1
	slli	t5, t5, 32
	or	s0, t5, t0
	slli	a0, a0, 32
	or	a0, a0, t6
	sd	a0, 264(sp)
	sd	s0, 272(sp)
	sd	s1, 280(sp)
	sd	s2, 288(sp)
	sd	a6, 128(sp)
	mv	s4, a7
	mv	s9, a4
	mv	s5, a5
	sd	a1, 120(sp)
	mv	s6, a2
	mv	s7, t3
	mv	s8, t4
	slli	s10, s10, 3
	lui	a0, 4096
	addi	a1, s10, 2032
	addi	a0, a0, 256
	srlw	a6, a0, a1
	j	.Lnoise_BB31_25
.Lnoise_BB31_18:
	slli	a0, s10, 48
	srli	s2, a0, 56
	bgeu	s1, s2, .Lnoise_BB31_37
	li	a0, 0
	li	s2, 0
	li	s1, 1
	bnez	s1, .Lnoise_BB31_31
	j	.Lnoise_BB31_28
.Lnoise_BB31_20:
	sd	a6, 128(sp)
	mv	s4, a7
	mv	s5, a5
	mv	s6, a2
	mv	s10, a3
	mv	s7, t3
	mv	s8, t4
	mv	a0, a1
	mv	s1, a1
	mv	s9, a4
	mv	a1, a4
	call	noise_noise_state_symmetric_SymmetricState_mix_key_and_hash
	mv	a1, s1
	j	.Lnoise_BB31_27
.Lnoise_BB31_21:
	li	a0, 4
	bne	s2, a0, .Lnoise_BB31_13
.Lnoise_BB31_22:
	lbu	a0, 0(a2)
	li	s1, 1
	bne	a0, s1, .Lnoise_BB31_30
	lbu	t0, 25(a2)
	lbu	t1, 26(a2)
	lbu	s6, 27(a2)
	lbu	a0, 28(a2)
	lbu	t2, 29(a2)
	lbu	t5, 30(a2)
	lbu	t6, 31(a2)
	lbu	s4, 32(a2)
	lbu	s5, 17(a2)
	lbu	s7, 18(a2)
	lbu	ra, 19(a2)
	lbu	s1, 20(a2)
	lbu	s8, 21(a2)
	lbu	s9, 22(a2)
	lbu	s10, 23(a2)
	lbu	s11, 24(a2)
	slli	t1, t1, 8
	slli	s6, s6, 16
	slli	a0, a0, 24
	or	s0, t1, t0
	sd	s0, 128(sp)
	or	t1, a0, s6
	lbu	s6, 9(a2)
	lbu	t0, 10(a2)
	lbu	s0, 11(a2)
	lbu	a0, 12(a2)
	slli	t5, t5, 8
	slli	t6, t6, 16
	slli	s4, s4, 24
	slli	s7, s7, 8
	slli	ra, ra, 16
	slli	s1, s1, 24
	or	t2, t5, t2
	or	t6, s4, t6
	or	t5, s7, s5
	or	s4, s1, ra
	lbu	s5, 13(a2)
	lbu	s7, 14(a2)
	lbu	ra, 15(a2)
	lbu	s1, 16(a2)
	slli	s9, s9, 8
	slli	s10, s10, 16
	slli	s11, s11, 24
	slli	t0, t0, 8
	slli	s0, s0, 16
	slli	a0, a0, 24
	or	s8, s9, s8
	or	s9, s11, s10
	or	t0, t0, s6
	or	s6, a0, s0
	lbu	s10, 1(a2)
	lbu	s11, 2(a2)
	lbu	s0, 3(a2)
	lbu	a0, 4(a2)
	slli	s7, s7, 8
	slli	ra, ra, 16
	slli	s1, s1, 24
	slli	s11, s11, 8
	slli	s0, s0, 16
	slli	a0, a0, 24
	or	s5, s7, s5
	or	ra, s1, ra
	or	s7, s11, s10
	or	s10, a0, s0
	lbu	s11, 6(a2)
	lbu	s1, 5(a2)
	lbu	a0, 7(a2)
	lbu	s0, 8(a2)
.Lnoise_BB31_24:
	slli	s11, s11, 8
	or	s11, s11, s1
	slli	a0, a0, 16
	slli	s0, s0, 24
	or	a0, a0, s0
	ld	s0, 128(sp)
	or	s0, t1, s0
	or	s1, t6, t2
	or	t1, s4, t5
	or	t2, s9, s8
	or	t0, s6, t0
	or	t5, ra, s5
	or	t6, s10, s7
	or	a0, a0, s11
	slli	s1, s1, 32
	or	s4, s1, s0
	slli	t2, t2, 32
	or	s1, t2, t1
	slli	t5, t5, 32
	or	s0, t5, t0
	slli	a0, a0, 32
	or	a0, a0, t6
	sd	a0, 264(sp)
	sd	s0, 272(sp)
	sd	s1, 280(sp)
	sd	s4, 288(sp)
	sd	a6, 128(sp)
	mv	s4, a7
	mv	s9, a4
	mv	s5, a5
	sd	a1, 120(sp)
	mv	s6, a2
	mv	s7, t3
	mv	s8, t4
	andi	a0, s2, 254
	addi	a0, a0, -4
	seqz	a6, a0
.Lnoise_BB31_25:
	lbu	a0, 16(a3)
	lbu	a1, 17(a3)
	lbu	a2, 18(a3)
	lbu	a4, 19(a3)
	lbu	a7, 20(a3)
	lbu	s0, 21(a3)
	lbu	a5, 22(a3)
	lbu	s1, 23(a3)
	slli	a1, a1, 8
	slli	a2, a2, 16
	slli	a4, a4, 24
	or	t0, a1, a0
	or	t1, a4, a2
	lbu	a1, 24(a3)
	lbu	a4, 25(a3)
	lbu	a0, 26(a3)
	lbu	a2, 27(a3)
	slli	s0, s0, 8
	slli	a5, a5, 16
	slli	s1, s1, 24
	slli	a4, a4, 8
	slli	a0, a0, 16
	slli	a2, a2, 24
	or	s0, s0, a7
	or	a5, a5, s1
	or	a1, a1, a4
	or	a0, a0, a2
	lbu	a2, 29(a3)
	lbu	a4, 28(a3)
	lbu	s1, 30(a3)
	mv	s10, a3
	lbu	a3, 31(a3)
	slli	a2, a2, 8
	or	a2, a2, a4
	slli	s1, s1, 16
	slli	a3, a3, 24
	or	a3, a3, s1
	or	a4, t1, t0
	or	a5, a5, s0
	or	a0, a0, a1
	or	a2, a2, a3
	slli	a1, a5, 32
	slli	a2, a2, 32
	or	a1, a1, a4
	or	a2, a2, a0
	addi	a0, sp, 472
	addi	a4, sp, 264
	mv	a3, a6
	call	noise_noise_c_supplied_keys_result_for
	lbu	a6, 472(sp)
	lbu	a1, 473(sp)
	lbu	a2, 474(sp)
	lbu	a7, 475(sp)
	lbu	t0, 476(sp)
	lbu	t1, 477(sp)
	lbu	t5, 478(sp)
	lbu	s2, 479(sp)
	lbu	a0, 480(sp)
	lbu	a5, 481(sp)
	lbu	a4, 482(sp)
	lbu	t2, 483(sp)
	lbu	t4, 484(sp)
	lbu	t3, 485(sp)
	lbu	ra, 486(sp)
	lbu	s1, 487(sp)
	slli	a2, a2, 8
	or	t6, a2, a1
	lbu	a1, 488(sp)
	lbu	a2, 489(sp)
	lbu	s0, 490(sp)
	lbu	s11, 491(sp)
	slli	a7, a7, 16
	slli	t0, t0, 24
	slli	t5, t5, 8
	slli	s2, s2, 16
	slli	a0, a0, 24
	slli	a3, a4, 8
	or	a7, t0, a7
	or	t0, t5, t1
	or	t5, a0, s2
	or	t1, a3, a5
	lbu	a0, 492(sp)
	lbu	a5, 493(sp)
	lbu	a3, 494(sp)
	lbu	a4, 495(sp)
	slli	t2, t2, 16
	slli	t4, t4, 24
	slli	ra, ra, 8
	slli	s1, s1, 16
	slli	a1, a1, 24
	slli	s0, s0, 8
	or	t2, t4, t2
	or	t3, ra, t3
	or	t4, a1, s1
	or	s2, s0, a2
	lbu	s1, 496(sp)
	lbu	s0, 497(sp)
	lbu	a1, 498(sp)
	lbu	a2, 499(sp)
	slli	s11, s11, 16
	slli	a0, a0, 24
	slli	a3, a3, 8
	slli	a4, a4, 16
	slli	s1, s1, 24
	slli	a1, a1, 8
	or	s11, a0, s11
	or	ra, a3, a5
	or	a4, a4, s1
	or	a1, a1, s0
	lbu	a5, 500(sp)
	lbu	s0, 501(sp)
	lbu	s1, 502(sp)
	lbu	a0, 503(sp)
	slli	a2, a2, 16
	slli	a5, a5, 24
	or	a2, a2, a5
	lbu	a5, 504(sp)
	slli	s1, s1, 8
	or	s0, s0, s1
	slli	a0, a0, 16
	slli	a5, a5, 24
	or	a0, a0, a5
	or	a5, a7, t6
	or	s1, t5, t0
	or	a7, t2, t1
	or	a3, t4, t3
	or	t0, s11, s2
	or	a4, a4, ra
	or	a1, a1, a2
	or	a0, a0, s0
	slli	s1, s1, 32
	or	a5, a5, s1
	slli	a3, a3, 32
	or	a2, a3, a7
	slli	a4, a4, 32
	or	a3, a4, t0
	slli	a0, a0, 32
	or	a0, a0, a1
	li	s11, 1
	sd	a5, 184(sp)
	sd	a2, 192(sp)
	sd	a3, 200(sp)
	sd	a0, 208(sp)
	bne	a6, s11, .Lnoise_BB31_30
	ld	a0, 184(sp)
	ld	a1, 192(sp)
	ld	a2, 200(sp)
	ld	a3, 208(sp)
	sd	a0, 216(sp)
	sd	a1, 224(sp)
	sd	a2, 232(sp)
	sd	a3, 240(sp)
	addi	a0, sp, 264
	li	a2, 208
	li	a1, 0
	call	memset
	addi	a0, sp, 216
	li	s2, 32
	sd	a0, 248(sp)
	sd	s2, 256(sp)
	sd	zero, 680(sp)
	sd	zero, 688(sp)
	sd	zero, 696(sp)
	sd	zero, 704(sp)
	addi	a0, sp, 472
	li	a2, 208
	li	a1, 0
	call	memset
	addi	a0, sp, 472
	ld	s1, 120(sp)
	mv	a1, s1
	call	noise_noise_kdf_keyed_Hmac_new
	addi	a0, sp, 680
	addi	a1, sp, 472
	addi	a2, sp, 248
	li	a3, 1
	call	noise_noise_kdf_keyed_Hmac_code
	addi	a0, sp, 264
	addi	a1, sp, 680
	call	noise_noise_kdf_keyed_Hmac_new
	sd	zero, 776(sp)
	sd	zero, 784(sp)
	sd	zero, 792(sp)
	sd	zero, 800(sp)
	sd	zero, 744(sp)
	sd	zero, 752(sp)
	sd	zero, 760(sp)
	sd	zero, 768(sp)
.Lnoise_pcrel_hi23:
	auipc	a2, %pcrel_hi(.Lnoise_static.102)
	addi	a0, sp, 744
	addi	a1, sp, 264
	addi	a2, a2, %pcrel_lo(.Lnoise_pcrel_hi23)
	li	a3, 1
	call	noise_noise_kdf_keyed_Hmac_code
	ld	a0, 744(sp)
	ld	a1, 752(sp)
	ld	a2, 760(sp)
	ld	a3, 768(sp)
	addi	a4, sp, 808
	sd	a0, 808(sp)
	sd	a1, 816(sp)
	sd	a2, 824(sp)
	sd	a3, 832(sp)
.Lnoise_pcrel_hi24:
	auipc	a0, %pcrel_hi(.Lnoise_static.103)
	addi	a0, a0, %pcrel_lo(.Lnoise_pcrel_hi24)
	sd	a4, 712(sp)
	sd	s2, 720(sp)
	sd	a0, 728(sp)
	sd	s11, 736(sp)
	addi	a0, sp, 776
	addi	a1, sp, 264
	addi	a2, sp, 712
	li	a3, 2
	call	noise_noise_kdf_keyed_Hmac_code
	ld	a0, 808(sp)
	ld	a1, 816(sp)
	ld	a2, 824(sp)
	ld	a3, 832(sp)
	sd	a0, 472(sp)
	sd	a1, 480(sp)
	sd	a2, 488(sp)
	sd	a3, 496(sp)
	addi	s2, sp, 504
	addi	a1, sp, 776
	li	a2, 32
	mv	a0, s2
	call	memcpy
	addi	a1, sp, 472
	li	a2, 32
	mv	a0, s1
	call	memcpy
	sb	s11, 64(s1)
	addi	a0, s1, 65
	li	a2, 32
	mv	a1, s2
	call	memcpy
	mv	a1, s1
	sb	zero, 108(s1)
	sb	zero, 109(s1)
	sb	zero, 110(s1)
	sb	zero, 111(s1)
	sb	zero, 104(s1)
	sb	zero, 105(s1)
	sb	zero, 106(s1)
	sb	zero, 107(s1)
.Lnoise_BB31_27:
	li	s2, 0
	mv	t4, s8
	mv	t3, s7
	mv	a3, s10
	mv	a2, s6
	mv	a5, s5
	mv	a4, s9
	mv	a7, s4
	ld	a6, 128(sp)
.Lnoise_BB31_28:
	lbu	a0, 0(a6)
	addi	a6, a6, 4
	addi	a7, a7, -1
	addi	a0, a0, -6
	seqz	s1, a0
	slli	a0, s1, 5
	add	a4, a4, a0
	sub	a5, a5, s1
	addi	a0, sp, 152
	call	noise_noise_handshake_reader_read_tokens_3dfcfe118667ed30
	lbu	a1, 152(sp)
	ld	a2, 160(sp)
	beqz	a1, .Lnoise_BB31_32
	lw	a3, 136(sp)
	lh	a4, 140(sp)
	lbu	a5, 142(sp)
	lbu	a0, 168(sp)
	sw	a3, 144(sp)
	sh	a4, 148(sp)
	sb	a5, 150(sp)
	li	s2, 1
	j	.Lnoise_BB31_33
.Lnoise_BB31_30:
	li	a0, 2
.Lnoise_BB31_31:
	sb	zero, 4(s3)
	sb	zero, 5(s3)
	sb	zero, 6(s3)
	sb	zero, 7(s3)
	li	a1, 1
	sb	zero, 12(s3)
	sb	zero, 13(s3)
	sb	zero, 14(s3)
	sb	zero, 15(s3)
	sb	zero, 8(s3)
	sb	zero, 9(s3)
	sb	zero, 10(s3)
	sb	zero, 11(s3)
	lbu	a2, 176(sp)
	lbu	a3, 177(sp)
	lbu	a4, 178(sp)
	lbu	a5, 179(sp)
	sb	a0, 16(s3)
	sb	a2, 17(s3)
	sb	a3, 18(s3)
	sb	a4, 19(s3)
	lbu	a0, 180(sp)
	lbu	a2, 181(sp)
	lbu	a3, 182(sp)
	sb	a1, 0(s3)
	sb	zero, 1(s3)
	sb	zero, 2(s3)
	sb	zero, 3(s3)
	sb	a5, 20(s3)
	sb	a0, 21(s3)
	sb	a2, 22(s3)
	sb	a3, 23(s3)
	j	.Lnoise_BB31_34
.Lnoise_BB31_32:
	li	a0, 0
.Lnoise_BB31_33:
	add	a2, a2, s2
	sb	zero, 4(s3)
	sb	zero, 5(s3)
	sb	zero, 6(s3)
	sb	zero, 7(s3)
	sb	a1, 0(s3)
	sb	zero, 1(s3)
	sb	zero, 2(s3)
	sb	zero, 3(s3)
	srli	a1, a2, 56
	srli	a3, a2, 48
	srli	a4, a2, 40
	srli	a5, a2, 32
	srli	s1, a2, 24
	srli	s0, a2, 16
	sb	a5, 12(s3)
	sb	a4, 13(s3)
	sb	a3, 14(s3)
	sb	a1, 15(s3)
	srli	a1, a2, 8
	sb	a2, 8(s3)
	sb	a1, 9(s3)
	sb	s0, 10(s3)
	sb	s1, 11(s3)
	lbu	a1, 144(sp)
	lbu	a2, 145(sp)
	lbu	a3, 146(sp)
	lbu	a4, 147(sp)
	sb	a0, 16(s3)
	sb	a1, 17(s3)
	sb	a2, 18(s3)
	sb	a3, 19(s3)
	lbu	a0, 148(sp)
	lbu	a1, 149(sp)
	lbu	a2, 150(sp)
	sb	a4, 20(s3)
	sb	a0, 21(s3)
	sb	a1, 22(s3)
	sb	a2, 23(s3)
.Lnoise_BB31_34:
	ld	ra, 936(sp)
	ld	s0, 928(sp)
	ld	s1, 920(sp)
	ld	s2, 912(sp)
	ld	s3, 904(sp)
	ld	s4, 896(sp)
	ld	s5, 888(sp)
	ld	s6, 880(sp)
	ld	s7, 872(sp)
	ld	s8, 864(sp)
	ld	s9, 856(sp)
	ld	s10, 848(sp)
	ld	s11, 840(sp)
	.cfi_restore ra
	.cfi_restore s0
	.cfi_restore s1
	.cfi_restore s2
	.cfi_restore s3
	.cfi_restore s4
	.cfi_restore s5
	.cfi_restore s6
	.cfi_restore s7
	.cfi_restore s8
	.cfi_restore s9
	.cfi_restore s10
	.cfi_restore s11
	addi	sp, sp, 944
	.cfi_def_cfa_offset 0
	ret
.Lnoise_BB31_35:
	.cfi_restore_state
	lbu	t0, 33(a3)
	mv	a0, a1
	sd	a1, 120(sp)
	mv	a1, t0
	mv	s5, a2
	mv	a2, s11
	sd	t4, 96(sp)
	sd	t3, 88(sp)
	sd	a3, 80(sp)
	sd	a5, 72(sp)
	sd	a4, 104(sp)
	sd	a7, 112(sp)
	sd	a6, 128(sp)
	call	noise_noise_handshake_tokens_mix_ephemeral
	lbu	s8, 24(s11)
	lbu	s1, 25(s11)
	lbu	s9, 26(s11)
	lbu	ra, 27(s11)
	lbu	a4, 28(s11)
	lbu	s0, 29(s11)
	lbu	a5, 30(s11)
	lbu	a0, 31(s11)
	sd	a0, 64(sp)
	lbu	a0, 16(s11)
	sd	a0, 56(sp)
	lbu	a0, 17(s11)
	sd	a0, 48(sp)
	lbu	a0, 18(s11)
	sd	a0, 40(sp)
	lbu	a0, 19(s11)
	sd	a0, 32(sp)
	lbu	a0, 20(s11)
	sd	a0, 24(sp)
	lbu	a0, 21(s11)
	sd	a0, 16(sp)
	lbu	a0, 22(s11)
	sd	a0, 8(sp)
	lbu	s7, 23(s11)
	lbu	s6, 8(s11)
	lbu	s4, 9(s11)
	lbu	t6, 10(s11)
	lbu	t5, 11(s11)
	lbu	t4, 12(s11)
	lbu	t3, 13(s11)
	lbu	t2, 14(s11)
	lbu	t1, 15(s11)
	lbu	t0, 0(s11)
	lbu	a7, 1(s11)
	lbu	a6, 2(s11)
	lbu	a3, 3(s11)
	lbu	a2, 4(s11)
	lbu	a1, 5(s11)
	lbu	a0, 6(s11)
	lbu	s11, 7(s11)
	li	s10, 1
	sb	s10, 0(s5)
	slli	s1, s1, 8
	or	s10, s1, s8
	slli	s1, s9, 16
	slli	ra, ra, 24
	or	ra, ra, s1
	slli	s0, s0, 8
	or	s0, s0, a4
	slli	s1, a5, 16
	ld	s9, 64(sp)
	slli	s9, s9, 24
	or	s9, s9, s1
	ld	a5, 48(sp)
	slli	a5, a5, 8
	ld	a4, 56(sp)
	or	a5, a5, a4
	ld	s1, 40(sp)
	slli	s1, s1, 16
	ld	s8, 32(sp)
	slli	s8, s8, 24
	or	s8, s8, s1
	ld	a4, 16(sp)
	slli	a4, a4, 8
	ld	s1, 24(sp)
	or	a4, a4, s1
	ld	s1, 8(sp)
	slli	s1, s1, 16
	slli	s7, s7, 24
	or	s7, s7, s1
	slli	s4, s4, 8
	or	s4, s4, s6
	slli	t6, t6, 16
	slli	t5, t5, 24
	or	t5, t5, t6
	slli	t3, t3, 8
	or	t3, t3, t4
	slli	t2, t2, 16
	slli	t1, t1, 24
	or	t1, t1, t2
	slli	a7, a7, 8
	or	a7, a7, t0
	slli	a6, a6, 16
	slli	a3, a3, 24
	or	a6, a3, a6
	slli	a1, a1, 8
	or	t0, a1, a2
	slli	a0, a0, 16
	slli	s11, s11, 24
	or	a0, s11, a0
	or	a2, ra, s10
	or	s0, s9, s0
	or	a5, s8, a5
	or	a4, s7, a4
	or	s1, t5, s4
	or	a3, t1, t3
	or	a1, a6, a7
	or	a0, a0, t0
	slli	s0, s0, 32
	or	a2, a2, s0
	slli	a4, a4, 32
	or	a4, a4, a5
	slli	a3, a3, 32
	or	a3, a3, s1
	slli	a0, a0, 32
	or	a0, a0, a1
	sd	a0, 472(sp)
	sd	a3, 480(sp)
	sd	a4, 488(sp)
	sd	a2, 496(sp)
	addi	a0, s5, 1
	addi	a1, sp, 472
	li	a2, 32
	call	memcpy
	ld	a6, 128(sp)
	ld	a7, 112(sp)
	ld	a4, 104(sp)
	ld	a5, 72(sp)
	ld	a1, 120(sp)
	mv	a2, s5
	ld	a3, 80(sp)
	ld	t3, 88(sp)
	ld	t4, 96(sp)
	j	.Lnoise_BB31_28
.Lnoise_BB31_36:
	li	a0, 0
	j	.Lnoise_BB31_31
.Lnoise_BB31_37:
	sd	a6, 128(sp)
	sd	a7, 112(sp)
	sd	a4, 104(sp)
	mv	s7, a5
	mv	s4, a2
	mv	s8, a3
	mv	s9, t3
	mv	s6, t4
	sd	zero, 504(sp)
	sd	zero, 512(sp)
	sd	zero, 472(sp)
	sd	zero, 480(sp)
	sd	zero, 488(sp)
	sd	zero, 496(sp)
	addi	a0, sp, 472
	mv	s5, a1
	mv	a1, s11
	mv	a2, s2
	call	memcpy
	mv	a1, s5
	lbu	a0, 64(s5)
	li	a2, 1
	sd	zero, 808(sp)
	sd	zero, 816(sp)
	bne	a0, a2, .Lnoise_BB31_40
	ld	a0, 104(a1)
	li	a2, -1
	beq	a0, a2, .Lnoise_BB31_46
	lui	a0, 15
	and	a0, s10, a0
	beqz	a0, .Lnoise_BB31_45
.Lnoise_BB31_40:
	addi	s0, a1, 64
	addi	s1, a1, 32
	addi	a0, sp, 264
	addi	a2, sp, 472
	mv	a1, s1
	mv	a3, s2
	call	noise_noise_state_symmetric_hash_of_both
	addi	a0, sp, 808
	li	a3, 32
	addi	a4, sp, 472
	mv	a1, s0
	mv	a2, s1
	mv	a5, s2
	call	noise_noise_state_cipher_CipherState_decrypt
	lbu	a0, 808(sp)
	beqz	a0, .Lnoise_BB31_43
	lbu	a0, 809(sp)
	addi	a0, a0, -1
	li	a1, 2
	bgeu	a0, a1, .Lnoise_BB31_46
	li	s2, 0
	li	s1, 1
	li	a0, 1
	mv	t4, s6
	mv	t3, s9
	mv	a3, s8
	mv	a2, s4
	j	.Lnoise_BB31_44
.Lnoise_BB31_43:
	addi	a1, sp, 264
	li	a2, 32
	mv	a0, s1
	call	memcpy
	li	a0, 1
	sb	a0, 33(s4)
	addi	a0, s4, 34
	addi	a1, sp, 472
	li	a2, 32
	call	memcpy
	mv	a2, s4
	li	s1, 0
	li	a0, 0
	mv	t4, s6
	mv	t3, s9
	mv	a3, s8
.Lnoise_BB31_44:
	mv	a1, s5
	mv	a5, s7
	ld	a4, 104(sp)
	ld	a7, 112(sp)
	ld	a6, 128(sp)
	bnez	s1, .Lnoise_BB31_31
	j	.Lnoise_BB31_28
.Lnoise_BB31_45:
	li	s2, 0
	li	s1, 1
	li	a0, 1
	mv	t4, s6
	mv	t3, s9
	mv	a3, s8
	mv	a2, s4
	mv	a5, s7
	ld	a4, 104(sp)
	ld	a7, 112(sp)
	ld	a6, 128(sp)
	bnez	s1, .Lnoise_BB31_31
	j	.Lnoise_BB31_28
.Lnoise_BB31_46:
	unimp
.Lnoise_func_end31:
	.size	noise_noise_handshake_reader_read_tokens_3dfcfe118667ed30, .Lnoise_func_end31-noise_noise_handshake_reader_read_tokens_3dfcfe118667ed30
	.cfi_endproc

	.section	".text.noise_handshake::tokens::mix_ephemeral","ax",@progbits
	.p2align	1
	.type	noise_noise_handshake_tokens_mix_ephemeral,@function
noise_noise_handshake_tokens_mix_ephemeral:
	.cfi_startproc
	addi	sp, sp, -640
	.cfi_def_cfa_offset 640
	sd	ra, 632(sp)
	sd	s0, 624(sp)
	sd	s1, 616(sp)
	sd	s2, 608(sp)
	sd	s3, 600(sp)
	sd	s4, 592(sp)
	.cfi_offset ra, -8
	.cfi_offset s0, -16
	.cfi_offset s1, -24
	.cfi_offset s2, -32
	.cfi_offset s3, -40
	.cfi_offset s4, -48
	mv	s1, a2
	mv	s0, a1
	mv	s2, a0
	addi	s3, a0, 32
	addi	a0, sp, 224
	li	a3, 32
	li	s4, 32
	mv	a1, s3
	call	noise_noise_state_symmetric_hash_of_both
	addi	a1, sp, 224
	li	a2, 32
	mv	a0, s3
	call	memcpy
	beqz	s0, .Lnoise_BB32_2
	addi	a0, sp, 16
	li	a2, 208
	li	a1, 0
	call	memset
	sd	s1, 0(sp)
	sd	s4, 8(sp)
	sd	zero, 432(sp)
	sd	zero, 440(sp)
	sd	zero, 448(sp)
	sd	zero, 456(sp)
	addi	a0, sp, 224
	li	a2, 208
	li	a1, 0
	call	memset
	addi	a0, sp, 224
	mv	a1, s2
	call	noise_noise_kdf_keyed_Hmac_new
	addi	a0, sp, 432
	addi	a1, sp, 224
	mv	a2, sp
	li	a3, 1
	li	s1, 1
	call	noise_noise_kdf_keyed_Hmac_code
	addi	a0, sp, 16
	addi	a1, sp, 432
	call	noise_noise_kdf_keyed_Hmac_new
	sd	zero, 528(sp)
	sd	zero, 536(sp)
	sd	zero, 544(sp)
	sd	zero, 552(sp)
	sd	zero, 496(sp)
	sd	zero, 504(sp)
	sd	zero, 512(sp)
	sd	zero, 520(sp)
.Lnoise_pcrel_hi25:
	auipc	a2, %pcrel_hi(.Lnoise_static.102)
	addi	a0, sp, 496
	addi	a1, sp, 16
	addi	a2, a2, %pcrel_lo(.Lnoise_pcrel_hi25)
	li	a3, 1
	call	noise_noise_kdf_keyed_Hmac_code
	ld	a0, 496(sp)
	ld	a1, 504(sp)
	ld	a2, 512(sp)
	ld	a3, 520(sp)
	addi	a4, sp, 560
	sd	a0, 560(sp)
	sd	a1, 568(sp)
	sd	a2, 576(sp)
	sd	a3, 584(sp)
.Lnoise_pcrel_hi26:
	auipc	a0, %pcrel_hi(.Lnoise_static.103)
	addi	a0, a0, %pcrel_lo(.Lnoise_pcrel_hi26)
	sd	a4, 464(sp)
	sd	s4, 472(sp)
	sd	a0, 480(sp)
	sd	s1, 488(sp)
	addi	a0, sp, 528
	addi	a1, sp, 16
	addi	a2, sp, 464
	li	a3, 2
	call	noise_noise_kdf_keyed_Hmac_code
	ld	a0, 560(sp)
	ld	a1, 568(sp)
	ld	a2, 576(sp)
	ld	a3, 584(sp)
	sd	a0, 224(sp)
	sd	a1, 232(sp)
	sd	a2, 240(sp)
	sd	a3, 248(sp)
	addi	s0, sp, 256
	addi	a1, sp, 528
	li	a2, 32
	mv	a0, s0
	call	memcpy
	addi	a1, sp, 224
	li	a2, 32
	mv	a0, s2
	call	memcpy
	sb	s1, 64(s2)
	addi	a0, s2, 65
	li	a2, 32
	mv	a1, s0
	call	memcpy
	sb	zero, 108(s2)
	sb	zero, 109(s2)
	sb	zero, 110(s2)
	sb	zero, 111(s2)
	sb	zero, 104(s2)
	sb	zero, 105(s2)
	sb	zero, 106(s2)
	sb	zero, 107(s2)
.Lnoise_BB32_2:
	ld	ra, 632(sp)
	ld	s0, 624(sp)
	ld	s1, 616(sp)
	ld	s2, 608(sp)
	ld	s3, 600(sp)
	ld	s4, 592(sp)
	.cfi_restore ra
	.cfi_restore s0
	.cfi_restore s1
	.cfi_restore s2
	.cfi_restore s3
	.cfi_restore s4
	addi	sp, sp, 640
	.cfi_def_cfa_offset 0
	ret
.Lnoise_func_end32:
	.size	noise_noise_handshake_tokens_mix_ephemeral, .Lnoise_func_end32-noise_noise_handshake_tokens_mix_ephemeral
	.cfi_endproc

	.section	.rodata.cst8,"aM",@progbits,8
	.p2align	3, 0x0
.Lnoise_CPI33_0:
	.quad	-4942790177982912921
.Lnoise_CPI33_1:
	.quad	-6534734903820487822
.Lnoise_CPI33_2:
	.quad	-7276294671082564993
.Lnoise_CPI33_3:
	.quad	6620516960021240235
	.section	".text.noise_state::symmetric::hash_of_both","ax",@progbits
	.p2align	1
	.type	noise_noise_state_symmetric_hash_of_both,@function
noise_noise_state_symmetric_hash_of_both:
	.cfi_startproc
	addi	sp, sp, -320
	.cfi_def_cfa_offset 320
	sd	ra, 312(sp)
	sd	s0, 304(sp)
	sd	s1, 296(sp)
	sd	s2, 288(sp)
	sd	s3, 280(sp)
	sd	s4, 272(sp)
	sd	s5, 264(sp)
	sd	s6, 256(sp)
	sd	s7, 248(sp)
	sd	s8, 240(sp)
	sd	s9, 232(sp)
	sd	s10, 224(sp)
	sd	s11, 216(sp)
	.cfi_offset ra, -8
	.cfi_offset s0, -16
	.cfi_offset s1, -24
	.cfi_offset s2, -32
	.cfi_offset s3, -40
	.cfi_offset s4, -48
	.cfi_offset s5, -56
	.cfi_offset s6, -64
	.cfi_offset s7, -72
	.cfi_offset s8, -80
	.cfi_offset s9, -88
	.cfi_offset s10, -96
	.cfi_offset s11, -104
	mv	s2, a3
	mv	s3, a2
	mv	s1, a1
	mv	s0, a0
.Lnoise_pcrel_hi27:
	auipc	a0, %pcrel_hi(.Lnoise_CPI33_0)
.Lnoise_pcrel_hi28:
	auipc	a1, %pcrel_hi(.Lnoise_CPI33_1)
.Lnoise_pcrel_hi29:
	auipc	a2, %pcrel_hi(.Lnoise_CPI33_2)
.Lnoise_pcrel_hi30:
	auipc	a3, %pcrel_hi(.Lnoise_CPI33_3)
	ld	a0, %pcrel_lo(.Lnoise_pcrel_hi27)(a0)
	ld	a1, %pcrel_lo(.Lnoise_pcrel_hi28)(a1)
	ld	a2, %pcrel_lo(.Lnoise_pcrel_hi29)(a2)
	ld	a3, %pcrel_lo(.Lnoise_pcrel_hi30)(a3)
	sd	a0, 0(sp)
	sd	a1, 8(sp)
	sd	a2, 16(sp)
	sd	a3, 24(sp)
	addi	s4, sp, 32
	li	a2, 72
	mv	a0, s4
	li	a1, 0
	call	memset
	mv	a0, sp
	li	a2, 32
	mv	a1, s1
	call	noise_sha2_block256_Core256_update
	mv	a0, sp
	mv	a1, s3
	mv	a2, s2
	call	noise_sha2_block256_Core256_update
	ld	s6, 0(sp)
	ld	s2, 8(sp)
	ld	s3, 16(sp)
	ld	s5, 24(sp)
	addi	a0, sp, 144
	li	a2, 72
	mv	a1, s4
	call	memcpy
	ld	s1, 208(sp)
	sd	s6, 112(sp)
	sd	s2, 120(sp)
	sd	s3, 128(sp)
	sd	s5, 136(sp)
	li	a0, 55
	sub	a0, a0, s1
	andi	a2, a0, 63
	addi	a2, a2, 1
.Lnoise_pcrel_hi31:
	auipc	a1, %pcrel_hi(.Lnoise_static.100)
	addi	a1, a1, %pcrel_lo(.Lnoise_pcrel_hi31)
	addi	a0, sp, 112
	call	noise_sha2_block256_Core256_update
	slli	a0, s1, 43
	li	a1, 255
	slli	a2, s1, 27
	slli	a3, s1, 11
	srli	a4, s1, 21
	lui	a5, 4080
	and	a4, a4, a5
	slli	a5, a1, 48
	and	a0, a0, a5
	slli	a5, a1, 40
	and	a2, a2, a5
	srli	a5, s1, 37
	slli	a1, a1, 32
	and	a1, a1, a3
	lui	a3, 16
	addi	a3, a3, -256
	and	a3, a3, a5
	slli	a5, s1, 59
	or	a0, a0, a5
	or	a1, a1, a2
	slli	a2, s1, 3
	srli	s1, s1, 5
	srli	a2, a2, 56
	srliw	a5, s1, 24
	slli	a5, a5, 24
	or	a4, a4, a5
	or	a0, a0, a1
	or	a0, a0, a4
	or	a2, a2, a3
	or	a0, a0, a2
	sd	a0, 104(sp)
	addi	a0, sp, 112
	addi	a1, sp, 104
	li	a2, 8
	call	noise_sha2_block256_Core256_update
	lw	a0, 112(sp)
	lw	s1, 116(sp)
	lw	a4, 120(sp)
	lw	a5, 124(sp)
	lw	a3, 128(sp)
	lw	a2, 132(sp)
	lw	a1, 136(sp)
	lw	t4, 140(sp)
	srli	t5, a0, 24
	srli	t6, s1, 24
	srli	t3, a4, 24
	srli	t2, a5, 24
	srli	t1, a3, 24
	srli	t0, a2, 24
	srli	a7, a1, 24
	srli	a6, t4, 24
	srli	s2, a0, 8
	srli	s3, a0, 16
	srli	s4, s1, 8
	srli	s5, s1, 16
	srli	s6, a4, 8
	srli	s7, a4, 16
	srli	s8, a5, 8
	srli	s9, a5, 16
	srli	s10, a3, 8
	srli	s11, a3, 16
	srli	ra, a2, 8
	sb	t5, 0(s0)
	srli	t5, a2, 16
	sb	s3, 1(s0)
	srli	s3, a1, 8
	sb	s2, 2(s0)
	sb	a0, 3(s0)
	srli	a0, a1, 16
	sb	t6, 4(s0)
	sb	s5, 5(s0)
	sb	s4, 6(s0)
	sb	s1, 7(s0)
	srli	s1, t4, 8
	sb	t3, 8(s0)
	sb	s7, 9(s0)
	sb	s6, 10(s0)
	sb	a4, 11(s0)
	srli	a4, t4, 16
	sb	t2, 12(s0)
	sb	s9, 13(s0)
	sb	s8, 14(s0)
	sb	a5, 15(s0)
	sb	t1, 16(s0)
	sb	s11, 17(s0)
	sb	s10, 18(s0)
	sb	a3, 19(s0)
	sb	t0, 20(s0)
	sb	t5, 21(s0)
	sb	ra, 22(s0)
	sb	a2, 23(s0)
	sb	a7, 24(s0)
	sb	a0, 25(s0)
	sb	s3, 26(s0)
	sb	a1, 27(s0)
	sb	a6, 28(s0)
	sb	a4, 29(s0)
	sb	s1, 30(s0)
	sb	t4, 31(s0)
	ld	ra, 312(sp)
	ld	s0, 304(sp)
	ld	s1, 296(sp)
	ld	s2, 288(sp)
	ld	s3, 280(sp)
	ld	s4, 272(sp)
	ld	s5, 264(sp)
	ld	s6, 256(sp)
	ld	s7, 248(sp)
	ld	s8, 240(sp)
	ld	s9, 232(sp)
	ld	s10, 224(sp)
	ld	s11, 216(sp)
	.cfi_restore ra
	.cfi_restore s0
	.cfi_restore s1
	.cfi_restore s2
	.cfi_restore s3
	.cfi_restore s4
	.cfi_restore s5
	.cfi_restore s6
	.cfi_restore s7
	.cfi_restore s8
	.cfi_restore s9
	.cfi_restore s10
	.cfi_restore s11
	addi	sp, sp, 320
	.cfi_def_cfa_offset 0
	ret
.Lnoise_func_end33:
	.size	noise_noise_state_symmetric_hash_of_both, .Lnoise_func_end33-noise_noise_state_symmetric_hash_of_both
	.cfi_endproc

	.section	".text.sha2::block256::Core256::update","ax",@progbits
	.p2align	1
	.type	noise_sha2_block256_Core256_update,@function
noise_sha2_block256_Core256_update:
	.cfi_startproc
	addi	sp, sp, -80
	.cfi_def_cfa_offset 80
	sd	ra, 72(sp)
	sd	s0, 64(sp)
	sd	s1, 56(sp)
	sd	s2, 48(sp)
	sd	s3, 40(sp)
	sd	s4, 32(sp)
	sd	s5, 24(sp)
	sd	s6, 16(sp)
	sd	s7, 8(sp)
	.cfi_offset ra, -8
	.cfi_offset s0, -16
	.cfi_offset s1, -24
	.cfi_offset s2, -32
	.cfi_offset s3, -40
	.cfi_offset s4, -48
	.cfi_offset s5, -56
	.cfi_offset s6, -64
	.cfi_offset s7, -72
	.cfi_remember_state
	mv	s2, a2
	mv	s5, a1
	mv	s3, a0
	ld	a1, 96(a0)
	andi	a0, a1, 63
	add	a1, a1, a2
	sd	a1, 96(s3)
	addi	s1, s3, 32
	beqz	a0, .Lnoise_BB34_5
	li	a1, 64
	sub	s4, a1, a0
	add	a0, a0, s1
	sub	a1, a0, s5
	bgeu	s2, s4, .Lnoise_BB34_6
	bgeu	a1, s2, .Lnoise_BB34_9
	add	s2, s2, s5
.Lnoise_BB34_4:
	lbu	a1, 0(s5)
	addi	s5, s5, 1
	sb	a1, 0(a0)
	addi	a0, a0, 1
	bne	s5, s2, .Lnoise_BB34_4
	j	.Lnoise_BB34_17
.Lnoise_BB34_5:
	li	s4, 0
	mv	s6, s2
	srli	a0, s2, 6
	bnez	a0, .Lnoise_BB34_12
	j	.Lnoise_BB34_14
.Lnoise_BB34_6:
	bgeu	a1, s4, .Lnoise_BB34_10
	add	a1, s5, s4
	mv	a2, s5
.Lnoise_BB34_8:
	lbu	a3, 0(a2)
	addi	a2, a2, 1
	sb	a3, 0(a0)
	addi	a0, a0, 1
	bne	a2, a1, .Lnoise_BB34_8
	j	.Lnoise_BB34_11
.Lnoise_BB34_9:
	mv	a1, s5
	mv	a2, s2
	j	.Lnoise_BB34_19
.Lnoise_BB34_10:
	mv	a1, s5
	mv	a2, s4
	call	memmove
.Lnoise_BB34_11:
	mv	a0, s3
	mv	a1, s1
	call	noise_sha2_block256_compress
	sub	s6, s2, s4
	srli	a0, s6, 6
	beqz	a0, .Lnoise_BB34_14
.Lnoise_BB34_12:
	add	s0, s5, s4
	slli	a0, a0, 6
	add	s7, s5, s4
	add	s7, s7, a0
.Lnoise_BB34_13:
	mv	a0, s3
	mv	a1, s0
	call	noise_sha2_block256_compress
	addi	s0, s0, 64
	bne	s0, s7, .Lnoise_BB34_13
.Lnoise_BB34_14:
	andi	a0, s6, -64
	add	a0, a0, s4
	add	a1, s5, a0
	sub	a2, s2, a0
	sub	a0, s1, a1
	bgeu	a0, a2, .Lnoise_BB34_18
	add	s2, s2, s5
.Lnoise_BB34_16:
	lbu	a0, 0(a1)
	addi	a1, a1, 1
	sb	a0, 0(s1)
	addi	s1, s1, 1
	bne	a1, s2, .Lnoise_BB34_16
.Lnoise_BB34_17:
	ld	ra, 72(sp)
	ld	s0, 64(sp)
	ld	s1, 56(sp)
	ld	s2, 48(sp)
	ld	s3, 40(sp)
	ld	s4, 32(sp)
	ld	s5, 24(sp)
	ld	s6, 16(sp)
	ld	s7, 8(sp)
	.cfi_restore ra
	.cfi_restore s0
	.cfi_restore s1
	.cfi_restore s2
	.cfi_restore s3
	.cfi_restore s4
	.cfi_restore s5
	.cfi_restore s6
	.cfi_restore s7
	addi	sp, sp, 80
	.cfi_def_cfa_offset 0
	ret
.Lnoise_BB34_18:
	.cfi_restore_state
	mv	a0, s1
.Lnoise_BB34_19:
	ld	ra, 72(sp)
	ld	s0, 64(sp)
	ld	s1, 56(sp)
	ld	s2, 48(sp)
	ld	s3, 40(sp)
	ld	s4, 32(sp)
	ld	s5, 24(sp)
	ld	s6, 16(sp)
	ld	s7, 8(sp)
	.cfi_restore ra
	.cfi_restore s0
	.cfi_restore s1
	.cfi_restore s2
	.cfi_restore s3
	.cfi_restore s4
	.cfi_restore s5
	.cfi_restore s6
	.cfi_restore s7
	addi	sp, sp, 80
	.cfi_def_cfa_offset 0
	tail	memmove
.Lnoise_func_end34:
	.size	noise_sha2_block256_Core256_update, .Lnoise_func_end34-noise_sha2_block256_Core256_update
	.cfi_endproc

	.section	".text.sha2::block256::compress","ax",@progbits
	.p2align	1
	.type	noise_sha2_block256_compress,@function
noise_sha2_block256_compress:
	.cfi_startproc
	addi	sp, sp, -512
	.cfi_def_cfa_offset 512
	sd	ra, 504(sp)
	sd	s0, 496(sp)
	sd	s1, 488(sp)
	sd	s2, 480(sp)
	sd	s3, 472(sp)
	sd	s4, 464(sp)
	sd	s5, 456(sp)
	sd	s6, 448(sp)
	sd	s7, 440(sp)
	sd	s8, 432(sp)
	sd	s9, 424(sp)
	sd	s10, 416(sp)
	sd	s11, 408(sp)
	.cfi_offset ra, -8
	.cfi_offset s0, -16
	.cfi_offset s1, -24
	.cfi_offset s2, -32
	.cfi_offset s3, -40
	.cfi_offset s4, -48
	.cfi_offset s5, -56
	.cfi_offset s6, -64
	.cfi_offset s7, -72
	.cfi_offset s8, -80
	.cfi_offset s9, -88
	.cfi_offset s10, -96
	.cfi_offset s11, -104
	lbu	s9, 0(a1)
	sd	s9, 360(sp)
	lbu	t0, 1(a1)
	lbu	t1, 2(a1)
	lbu	t2, 3(a1)
	lbu	s10, 4(a1)
	sd	s10, 368(sp)
	lbu	a6, 5(a1)
	lbu	ra, 6(a1)
	lbu	a7, 7(a1)
	lbu	t5, 0(a0)
	lbu	a3, 1(a0)
	lbu	a4, 2(a0)
	lbu	a5, 3(a0)
	lbu	t3, 4(a0)
	lbu	t4, 5(a0)
	lbu	s2, 6(a0)
	lbu	s7, 7(a0)
	lbu	t6, 8(a0)
	lbu	a2, 9(a0)
	lbu	s0, 10(a0)
	lbu	s8, 11(a0)
	lbu	s3, 12(a0)
	lbu	s4, 13(a0)
	lbu	s5, 14(a0)
	lbu	s6, 15(a0)
	slli	a3, a3, 8
	slli	a4, a4, 16
	slli	a5, a5, 24
	or	a3, a3, t5
	sd	a3, 400(sp)
	or	a4, a4, a5
	sd	a4, 392(sp)
	lbu	t5, 16(a0)
	lbu	a4, 17(a0)
	lbu	a5, 18(a0)
	lbu	s1, 19(a0)
	slli	t4, t4, 8
	slli	s2, s2, 16
	slli	s7, s7, 24
	slli	a2, a2, 8
	slli	s0, s0, 16
	slli	s8, s8, 24
	or	a3, t4, t3
	sd	a3, 312(sp)
	or	a3, s7, s2
	sd	a3, 304(sp)
	or	a2, a2, t6
	sd	a2, 296(sp)
	or	a2, s8, s0
	sd	a2, 288(sp)
	lbu	t3, 20(a0)
	lbu	t6, 21(a0)
	lbu	s0, 22(a0)
	lbu	a3, 23(a0)
	slli	s4, s4, 8
	slli	s5, s5, 16
	slli	s6, s6, 24
	slli	a4, a4, 8
	slli	a5, a5, 16
	slli	s1, s1, 24
	or	a2, s4, s3
	sd	a2, 264(sp)
	or	a2, s6, s5
	sd	a2, 256(sp)
	or	a4, a4, t5
	sd	a4, 384(sp)
	or	a5, a5, s1
	sd	a5, 376(sp)
	lbu	t4, 24(a0)
	lbu	a5, 25(a0)
	lbu	s1, 26(a0)
	lbu	a4, 27(a0)
	slli	a2, t6, 8
	slli	s0, s0, 16
	slli	a3, a3, 24
	slli	a5, a5, 8
	slli	s1, s1, 16
	slli	a4, a4, 24
	or	a2, a2, t3
	sd	a2, 224(sp)
	or	a3, a3, s0
	sd	a3, 216(sp)
	or	a2, a5, t4
	sd	a2, 208(sp)
	or	a4, a4, s1
	sd	a4, 200(sp)
	lbu	t3, 28(a0)
	lbu	a2, 29(a0)
	lbu	a3, 30(a0)
	sd	a0, 48(sp)
	lbu	a4, 31(a0)
	slli	t2, t2, 24
	slli	t1, t1, 16
	sd	t1, 160(sp)
	slli	t0, t0, 8
	slli	a7, a7, 24
	slli	ra, ra, 16
	sd	ra, 176(sp)
	slli	a6, a6, 8
	slli	a2, a2, 8
	slli	a3, a3, 16
	slli	a4, a4, 24
	or	a5, t0, s9
	or	s1, t1, t2
	or	s0, a6, s10
	or	a0, ra, a7
	or	a2, a2, t3
	sd	a2, 144(sp)
	or	a3, a3, a4
	sd	a3, 128(sp)
	or	a5, a5, s1
	sd	a5, 136(sp)
	or	a0, a0, s0
	sd	a0, 152(sp)
	lbu	a0, 11(a1)
	lbu	s10, 10(a1)
	lbu	a2, 9(a1)
	lbu	a3, 8(a1)
	sd	a3, 352(sp)
	slli	a0, a0, 24
	slli	ra, s10, 16
	slli	a2, a2, 8
	or	a2, a2, a3
	or	a0, ra, a0
	or	a0, a0, a2
	sd	a0, 112(sp)
	lbu	a0, 15(a1)
	lbu	s3, 14(a1)
	lbu	a2, 13(a1)
	lbu	a3, 12(a1)
	sd	a3, 344(sp)
	slli	a0, a0, 24
	slli	s9, s3, 16
	slli	a2, a2, 8
	or	a2, a2, a3
	or	a0, s9, a0
	or	a0, a0, a2
	sd	a0, 104(sp)
	lbu	a0, 19(a1)
	lbu	s11, 18(a1)
	lbu	a2, 17(a1)
	lbu	a3, 16(a1)
	sd	a3, 336(sp)
	slli	a0, a0, 24
	slli	s11, s11, 16
	slli	a2, a2, 8
	or	a2, a2, a3
	or	a0, s11, a0
	or	a0, a0, a2
	sd	a0, 96(sp)
	lbu	a0, 23(a1)
	lbu	s7, 22(a1)
	lbu	a2, 21(a1)
	lbu	a3, 20(a1)
	sd	a3, 328(sp)
	slli	a0, a0, 24
	slli	s5, s7, 16
	slli	a2, a2, 8
	or	a2, a2, a3
	or	a0, s5, a0
	or	a0, a0, a2
	sd	a0, 40(sp)
	lbu	a0, 27(a1)
	lbu	t6, 26(a1)
	lbu	a2, 25(a1)
	lbu	a3, 24(a1)
	sd	a3, 320(sp)
	slli	a0, a0, 24
	slli	s4, t6, 16
	slli	a2, a2, 8
	or	a2, a2, a3
	or	a0, s4, a0
	or	a0, a0, a2
	sd	a0, 32(sp)
	lbu	a0, 31(a1)
	lbu	s0, 30(a1)
	lbu	a2, 29(a1)
	lbu	a3, 28(a1)
	sd	a3, 280(sp)
	slli	a0, a0, 24
	slli	s0, s0, 16
	slli	a2, a2, 8
	or	a2, a2, a3
	or	a0, a0, s0
	or	a0, a0, a2
	sd	a0, 16(sp)
	lbu	a0, 35(a1)
	lbu	t3, 34(a1)
	lbu	a2, 33(a1)
	lbu	a3, 32(a1)
	sd	a3, 272(sp)
	slli	a0, a0, 24
	slli	s3, t3, 16
	slli	a2, a2, 8
	or	a2, a2, a3
	or	a0, s3, a0
	or	a0, a0, a2
	sd	a0, 8(sp)
	lbu	a0, 39(a1)
	lbu	t2, 38(a1)
	lbu	a2, 37(a1)
	lbu	a3, 36(a1)
	sd	a3, 248(sp)
	slli	a0, a0, 24
	slli	s2, t2, 16
	slli	a2, a2, 8
	or	a2, a2, a3
	or	s1, s2, a0
	or	s8, a2, s1
	lbu	a0, 43(a1)
	lbu	t0, 42(a1)
	lbu	a2, 41(a1)
	lbu	a3, 40(a1)
	sd	a3, 240(sp)
	slli	a0, a0, 24
	slli	t6, t0, 16
	slli	a2, a2, 8
	or	a2, a2, a3
	or	a0, t6, a0
	or	s7, a2, a0
	lbu	a0, 47(a1)
	lbu	a6, 46(a1)
	lbu	a2, 45(a1)
	lbu	a3, 44(a1)
	sd	a3, 232(sp)
	slli	a0, a0, 24
	slli	t4, a6, 16
	slli	a2, a2, 8
	or	a2, a2, a3
	or	a0, t4, a0
	or	s6, a2, a0
	lbu	a0, 51(a1)
	lbu	a4, 50(a1)
	lbu	a2, 49(a1)
	lbu	a3, 48(a1)
	sd	a3, 192(sp)
	slli	a0, a0, 24
	slli	t2, a4, 16
	slli	a2, a2, 8
	or	a2, a2, a3
	or	a0, t2, a0
	or	s1, a2, a0
	lbu	a0, 55(a1)
	lbu	a3, 54(a1)
	lbu	a2, 53(a1)
	lbu	a4, 52(a1)
	sd	a4, 184(sp)
	slli	a0, a0, 24
	slli	t0, a3, 16
	slli	a2, a2, 8
	or	a2, a2, a4
	or	a0, t0, a0
	or	t5, a2, a0
	lbu	a0, 59(a1)
	lbu	a2, 58(a1)
	lbu	a5, 57(a1)
	lbu	a3, 56(a1)
	sd	a3, 168(sp)
	slli	a0, a0, 24
	slli	a4, a2, 16
	slli	a5, a5, 8
	or	a5, a5, a3
	or	a0, a0, a4
	or	t3, a5, a0
	lbu	a0, 63(a1)
	lbu	a2, 62(a1)
	lbu	a3, 61(a1)
	lbu	a5, 60(a1)
	sd	a5, 120(sp)
	slli	a1, a0, 24
	slli	a7, a2, 16
	slli	a3, a3, 8
	or	a2, a3, a5
	or	a1, a7, a1
	or	t1, a2, a1
	ld	a2, 312(sp)
	ld	a3, 304(sp)
	or	a2, a2, a3
	sd	a2, 72(sp)
	ld	a2, 296(sp)
	ld	a3, 288(sp)
	or	a2, a2, a3
	sd	a2, 64(sp)
	ld	a1, 264(sp)
	ld	a2, 256(sp)
	or	a1, a1, a2
	sd	a1, 56(sp)
	ld	a1, 224(sp)
	ld	a2, 216(sp)
	or	a1, a1, a2
	sd	a1, 88(sp)
	ld	a1, 208(sp)
	ld	a2, 200(sp)
	or	s10, a2, a1
	ld	a0, 144(sp)
	ld	a1, 128(sp)
	or	a0, a0, a1
	sd	a0, 80(sp)
	ld	a2, 160(sp)
	srli	a2, a2, 8
	ld	a6, 136(sp)
	srliw	a3, a6, 24
	or	a2, a2, a3
	sd	a2, 312(sp)
	ld	a2, 176(sp)
	srli	a2, a2, 8
	ld	a5, 152(sp)
	srliw	a3, a5, 24
	or	a2, a2, a3
	sd	a2, 304(sp)
	srli	a2, ra, 8
	ld	ra, 112(sp)
	srliw	a3, ra, 24
	or	a2, a2, a3
	sd	a2, 296(sp)
	srli	a2, s9, 8
	ld	s9, 104(sp)
	srliw	a3, s9, 24
	or	a2, a2, a3
	sd	a2, 288(sp)
	srli	a2, s11, 8
	ld	a1, 96(sp)
	srliw	a3, a1, 24
	or	a2, a2, a3
	sd	a2, 264(sp)
	srli	a2, s5, 8
	ld	s5, 40(sp)
	srliw	a3, s5, 24
	or	a2, a2, a3
	sd	a2, 256(sp)
	srli	a2, s4, 8
	ld	s4, 32(sp)
	srliw	a3, s4, 24
	or	a2, a2, a3
	sd	a2, 224(sp)
	srli	s0, s0, 8
	ld	a0, 16(sp)
	srliw	a2, a0, 24
	or	a2, a2, s0
	sd	a2, 216(sp)
	srli	a2, s3, 8
	ld	s0, 8(sp)
	srliw	a3, s0, 24
	or	a2, a2, a3
	sd	a2, 208(sp)
	srli	a2, s2, 8
	srliw	a3, s8, 24
	or	a2, a2, a3
	sd	a2, 200(sp)
	srli	a2, t6, 8
	srliw	a3, s7, 24
	or	a2, a2, a3
	sd	a2, 176(sp)
	srli	a2, t4, 8
	srliw	a3, s6, 24
	or	a2, a2, a3
	sd	a2, 160(sp)
	srli	a2, t2, 8
	srliw	a3, s1, 24
	or	a2, a2, a3
	sd	a2, 144(sp)
	srli	a2, t0, 8
	srliw	a3, t5, 24
	or	a2, a2, a3
	sd	a2, 128(sp)
	srli	a4, a4, 8
	srliw	a2, t3, 24
	or	a2, a2, a4
	sd	a2, 24(sp)
	lui	a2, 16
	addi	a2, a2, -256
	srli	a4, a7, 8
	and	a3, a6, a2
	and	t2, a5, a2
	and	a7, ra, a2
	and	s3, s9, a2
	and	a6, a1, a2
	and	s2, s5, a2
	and	ra, s4, a2
	and	s5, a0, a2
	and	s4, s0, a2
	and	a5, s8, a2
	and	s9, s7, a2
	and	t6, s6, a2
	and	s7, s1, a2
	and	t0, t5, a2
	and	s8, t3, a2
	and	s11, t1, a2
	srliw	a1, t1, 24
	or	a1, a1, a4
	sd	a1, 152(sp)
	ld	a0, 384(sp)
	ld	a1, 376(sp)
	or	t4, a1, a0
	slli	a0, a0, 18
	srli	a1, t4, 14
	or	a0, a0, a1
	ld	a2, 400(sp)
	ld	a1, 392(sp)
	or	t5, a1, a2
	slli	a2, a2, 23
	srli	a1, t5, 9
	or	a1, a1, a2
	ld	a2, 360(sp)
	slli	a2, a2, 24
	slli	a3, a3, 8
	or	a2, a2, a3
	ld	a3, 368(sp)
	slli	a3, a3, 24
	slli	s0, t2, 8
	or	a3, a3, s0
	ld	s0, 352(sp)
	slli	s0, s0, 24
	slli	a7, a7, 8
	or	a7, s0, a7
	ld	s0, 344(sp)
	slli	s0, s0, 24
	slli	t2, s3, 8
	or	t2, s0, t2
	ld	s0, 336(sp)
	slli	s0, s0, 24
	slli	a6, a6, 8
	or	a6, s0, a6
	ld	s0, 328(sp)
	slli	s0, s0, 24
	slli	s2, s2, 8
	or	s2, s0, s2
	ld	s0, 320(sp)
	slli	s0, s0, 24
	slli	a4, ra, 8
	or	a4, a4, s0
	ld	s0, 280(sp)
	slli	s0, s0, 24
	slli	s5, s5, 8
	or	s5, s0, s5
	ld	s0, 272(sp)
	slli	s0, s0, 24
	slli	s4, s4, 8
	or	s4, s0, s4
	ld	s0, 248(sp)
	slli	s0, s0, 24
	slli	s6, a5, 8
	or	s0, s0, s6
	ld	s6, 240(sp)
	slli	s6, s6, 24
	slli	s1, s9, 8
	or	s1, s6, s1
	ld	s6, 232(sp)
	slli	s6, s6, 24
	slli	t6, t6, 8
	or	t6, s6, t6
	ld	s6, 192(sp)
	slli	s6, s6, 24
	slli	t3, s7, 8
	or	t3, s6, t3
	ld	s6, 184(sp)
	slli	s6, s6, 24
	slli	t1, t0, 8
	or	t1, s6, t1
	ld	ra, 168(sp)
	slli	ra, ra, 24
	slli	a5, s8, 8
	or	s6, ra, a5
	ld	s9, 120(sp)
	slli	s9, s9, 24
	slli	s8, s11, 8
	or	ra, s9, s8
	ld	a5, 312(sp)
	or	a5, a5, a2
	ld	a2, 304(sp)
	or	s8, a3, a2
	ld	a2, 296(sp)
	or	s9, a7, a2
	ld	a2, 288(sp)
	or	t2, t2, a2
	sd	t2, 312(sp)
	ld	a2, 264(sp)
	or	a6, a6, a2
	ld	a2, 256(sp)
	or	s2, s2, a2
	ld	a2, 224(sp)
	or	a2, a2, a4
	sd	a2, 392(sp)
	ld	a2, 216(sp)
	or	s5, s5, a2
	ld	a2, 208(sp)
	or	a2, s4, a2
	sd	a2, 376(sp)
	ld	a2, 200(sp)
	or	a2, a2, s0
	sd	a2, 344(sp)
	ld	a2, 176(sp)
	or	a2, a2, s1
	sd	a2, 296(sp)
	ld	a2, 160(sp)
	or	s4, t6, a2
	ld	a2, 144(sp)
	or	a2, t3, a2
	sd	a2, 384(sp)
	ld	a2, 128(sp)
	or	a2, t1, a2
	sd	a2, 400(sp)
	ld	a2, 24(sp)
	or	s11, s6, a2
	xor	a0, a0, t4
	xor	a1, a1, t5
	ld	a2, 152(sp)
	or	t6, ra, a2
	srliw	a2, a0, 5
	slli	a0, a0, 27
	or	a0, a0, a2
	srliw	a2, a1, 11
	slli	a1, a1, 21
	or	a1, a1, a2
	ld	a4, 88(sp)
	xor	a2, s10, a4
	and	a2, a2, t4
	xor	a2, a2, s10
	sd	a5, 336(sp)
	ld	a3, 80(sp)
	add	a3, a3, a5
	add	a2, a2, a3
	lui	a3, 272547
	addi	a3, a3, -104
	add	a2, a2, a3
	xor	a0, a0, t4
	srliw	a3, a0, 6
	slli	a0, a0, 26
	or	a0, a0, a3
	xor	a1, a1, t5
	srliw	a3, a1, 2
	slli	a1, a1, 30
	or	a1, a1, a3
	add	a0, a0, a2
	ld	s0, 72(sp)
	xor	a2, s0, t5
	ld	t3, 64(sp)
	xor	a3, t3, s0
	and	a3, a3, a2
	xor	a3, a3, s0
	add	a1, a1, a3
	add	a7, a1, a0
	ld	s1, 56(sp)
	add	s1, s1, a0
	srliw	a0, s1, 14
	slli	a1, s1, 18
	or	a0, a0, a1
	srliw	a1, a7, 9
	slli	a3, a7, 23
	or	a1, a1, a3
	xor	a3, a4, t4
	and	a3, a3, s1
	xor	a3, a3, a4
	mv	a5, a4
	sd	s10, 40(sp)
	sd	s8, 328(sp)
	add	a4, s10, s8
	add	a3, a3, a4
	lui	a4, 463732
	addi	a4, a4, 1169
	add	a3, a3, a4
	xor	a0, a0, s1
	srliw	a4, a0, 5
	slli	a0, a0, 27
	or	a0, a0, a4
	xor	a1, a1, a7
	srliw	a4, a1, 11
	slli	a1, a1, 21
	or	a1, a1, a4
	xor	a0, a0, s1
	srliw	a4, a0, 6
	slli	a0, a0, 26
	or	a0, a0, a4
	xor	a1, a1, a7
	srliw	a4, a1, 2
	slli	a1, a1, 30
	or	a1, a1, a4
	add	a0, a0, a3
	xor	a3, a7, t5
	and	a2, a2, a3
	xor	a2, a2, t5
	add	a1, a1, a2
	add	t0, a1, a0
	add	t3, t3, a0
	srliw	a1, t3, 14
	slli	a2, t3, 18
	or	a1, a1, a2
	srliw	a2, t0, 9
	slli	a4, t0, 23
	or	a2, a2, a4
	xor	a4, s1, t4
	and	a4, t3, a4
	xor	a4, a4, t4
	sd	s9, 368(sp)
	add	a5, a5, s9
	add	a4, a4, a5
	lui	a5, 744464
	addi	a5, a5, -1073
	add	a4, a4, a5
	xor	a1, a1, t3
	srliw	a5, a1, 5
	slli	a1, a1, 27
	or	a1, a1, a5
	xor	a2, a2, t0
	srliw	a5, a2, 11
	slli	a2, a2, 21
	or	a2, a2, a5
	xor	a1, a1, t3
	srliw	a5, a1, 6
	slli	a1, a1, 26
	or	a1, a1, a5
	xor	a2, a2, t0
	srliw	a5, a2, 2
	slli	a2, a2, 30
	or	a2, a2, a5
	add	a1, a1, a4
	xor	a5, t0, a7
	and	a3, a3, a5
	xor	a3, a3, a7
	add	a2, a2, a3
	add	t1, a2, a1
	add	a4, a1, s0
	srliw	a1, a4, 14
	slli	a2, a4, 18
	or	a1, a1, a2
	srliw	a2, t1, 9
	slli	a3, t1, 23
	or	a2, a2, a3
	xor	a3, t3, s1
	and	a3, a3, a4
	xor	a3, a3, s1
	sd	t4, 32(sp)
	add	s0, t4, t2
	add	a3, a3, s0
	lui	s0, 957278
	addi	s0, s0, -1115
	add	a3, a3, s0
	xor	a1, a1, a4
	srliw	s0, a1, 5
	slli	a1, a1, 27
	or	a1, a1, s0
	xor	a2, a2, t1
	srliw	s0, a2, 11
	slli	a2, a2, 21
	or	a2, a2, s0
	xor	a1, a1, a4
	srliw	s0, a1, 6
	slli	a1, a1, 26
	or	a1, a1, s0
	xor	a2, a2, t1
	srliw	s0, a2, 2
	slli	a2, a2, 30
	or	a2, a2, s0
	add	a1, a1, a3
	xor	a3, t1, t0
	and	a5, a5, a3
	xor	a5, a5, t0
	add	a2, a2, a5
	add	t2, a2, a1
	sd	t5, 24(sp)
	add	a5, a1, t5
	srliw	a1, a5, 14
	slli	a2, a5, 18
	or	a1, a1, a2
	srliw	a2, t2, 9
	slli	s0, t2, 23
	or	a2, a2, s0
	sd	a6, 320(sp)
	add	s1, s1, a6
	xor	a0, a4, t3
	and	a0, a0, a5
	xor	a0, a0, t3
	add	a0, a0, s1
	lui	s1, 234860
	addi	s1, s1, 603
	add	a0, a0, s1
	xor	a1, a1, a5
	srliw	s1, a1, 5
	slli	a1, a1, 27
	or	a1, a1, s1
	xor	a2, a2, t2
	srliw	s1, a2, 11
	slli	a2, a2, 21
	or	a2, a2, s1
	xor	a1, a1, a5
	srliw	s1, a1, 6
	slli	a1, a1, 26
	or	a1, a1, s1
	xor	a2, a2, t2
	srliw	s1, a2, 2
	slli	a2, a2, 30
	or	a2, a2, s1
	add	a0, a0, a1
	xor	a1, t2, t1
	and	a3, a3, a1
	xor	a3, a3, t1
	add	a2, a2, a3
	add	a6, a2, a0
	add	a7, a7, a0
	srliw	a0, a7, 14
	slli	a2, a7, 18
	or	a0, a0, a2
	srliw	a2, a6, 9
	slli	a3, a6, 23
	or	a2, a2, a3
	sd	s2, 360(sp)
	add	t3, t3, s2
	xor	a3, a5, a4
	and	a3, a7, a3
	xor	a3, a3, a4
	add	a3, a3, t3
	lui	s1, 368401
	addi	s1, s1, 497
	add	a3, a3, s1
	xor	a0, a0, a7
	srliw	s1, a0, 5
	slli	a0, a0, 27
	or	a0, a0, s1
	xor	a2, a2, a6
	srliw	s1, a2, 11
	slli	a2, a2, 21
	or	a2, a2, s1
	xor	a0, a0, a7
	srliw	s1, a0, 6
	slli	a0, a0, 26
	or	a0, a0, s1
	xor	a2, a2, a6
	srliw	s1, a2, 2
	slli	a2, a2, 30
	or	a2, a2, s1
	add	a3, a3, a0
	xor	s1, a6, t2
	and	a1, a1, s1
	xor	a0, a1, t2
	add	a0, a0, a2
	add	t3, a0, a3
	add	t0, t0, a3
	srliw	a1, t0, 14
	slli	a2, t0, 18
	or	a1, a1, a2
	srliw	a2, t3, 9
	slli	a3, t3, 23
	or	a2, a2, a3
	ld	a0, 392(sp)
	add	a4, a4, a0
	xor	a3, a7, a5
	and	a3, t0, a3
	xor	a3, a3, a5
	add	a3, a3, a4
	lui	a4, 599032
	addi	a4, a4, 676
	add	a3, a3, a4
	xor	a1, a1, t0
	srliw	a4, a1, 5
	slli	a1, a1, 27
	or	a1, a1, a4
	xor	a2, a2, t3
	srliw	a4, a2, 11
	slli	a2, a2, 21
	or	a2, a2, a4
	xor	a1, a1, t0
	srliw	a4, a1, 6
	slli	a1, a1, 26
	or	a1, a1, a4
	xor	a2, a2, t3
	srliw	a4, a2, 2
	slli	a2, a2, 30
	or	a2, a2, a4
	add	a1, a1, a3
	xor	a3, t3, a6
	and	s1, s1, a3
	xor	a4, s1, a6
	add	a2, a2, a4
	add	s1, a2, a1
	add	t1, t1, a1
	srliw	a1, t1, 14
	slli	a2, t1, 18
	or	a1, a1, a2
	srliw	a2, s1, 9
	slli	a4, s1, 23
	or	a2, a2, a4
	sd	s5, 352(sp)
	add	a5, a5, s5
	xor	a4, t0, a7
	and	a4, t1, a4
	xor	a4, a4, a7
	add	a4, a4, a5
	lui	a5, 700870
	addi	a5, a5, -299
	add	a4, a4, a5
	xor	a1, a1, t1
	srliw	a5, a1, 5
	slli	a1, a1, 27
	or	a1, a1, a5
	xor	a2, a2, s1
	srliw	a5, a2, 11
	slli	a2, a2, 21
	or	a2, a2, a5
	xor	a1, a1, t1
	srliw	a5, a1, 6
	slli	a1, a1, 26
	or	a1, a1, a5
	xor	a2, a2, s1
	srliw	a5, a2, 2
	slli	a2, a2, 30
	or	a2, a2, a5
	add	a1, a1, a4
	xor	a4, s1, t3
	and	a3, a3, a4
	xor	a3, a3, t3
	add	a2, a2, a3
	add	t5, a2, a1
	add	s0, a1, t2
	srliw	a1, s0, 14
	slli	a2, s0, 18
	or	t2, a2, a1
	srliw	a2, t5, 9
	slli	a3, t5, 23
	or	a2, a2, a3
	ld	a0, 376(sp)
	add	a7, a7, a0
	xor	a3, t1, t0
	and	a3, a3, s0
	xor	a3, a3, t0
	add	a3, a3, a7
	lui	a1, 884859
	addi	a1, a1, -1384
	add	a1, a1, a3
	xor	a3, t2, s0
	srliw	a0, a3, 5
	slli	a3, a3, 27
	or	a0, a0, a3
	xor	a2, a2, t5
	srliw	a3, a2, 11
	slli	a2, a2, 21
	or	a2, a2, a3
	xor	a0, a0, s0
	srliw	a3, a0, 6
	slli	a0, a0, 26
	or	a0, a0, a3
	xor	a2, a2, t5
	srliw	a3, a2, 2
	slli	a2, a2, 30
	or	a2, a2, a3
	add	a0, a0, a1
	xor	a1, t5, s1
	and	a4, a4, a1
	xor	a4, a4, s1
	add	a2, a2, a4
	add	t2, a2, a0
	add	a6, a6, a0
	srliw	a0, a6, 14
	slli	a2, a6, 18
	or	a0, a0, a2
	srliw	a2, t2, 9
	slli	a3, t2, 23
	or	a2, a2, a3
	ld	a3, 344(sp)
	mv	s5, a3
	add	t0, t0, a3
	xor	a3, s0, t1
	and	a3, a6, a3
	xor	a3, a3, t1
	add	a3, a3, t0
	lui	a4, 75830
	addi	a4, a4, -1279
	add	a3, a3, a4
	xor	a0, a0, a6
	srliw	a4, a0, 5
	slli	a0, a0, 27
	or	a0, a0, a4
	xor	a2, a2, t2
	srliw	a4, a2, 11
	slli	a2, a2, 21
	or	a2, a2, a4
	xor	a0, a0, a6
	srliw	a4, a0, 6
	slli	a0, a0, 26
	or	a0, a0, a4
	xor	a2, a2, t2
	srliw	a4, a2, 2
	slli	a2, a2, 30
	or	a2, a2, a4
	add	a0, a0, a3
	xor	a3, t2, t5
	and	a1, a1, a3
	xor	a1, a1, t5
	add	a1, a1, a2
	add	t4, a1, a0
	add	a0, a0, t3
	srliw	a1, a0, 14
	slli	a2, a0, 18
	or	a7, a2, a1
	srliw	a2, t4, 9
	slli	a4, t4, 23
	or	a2, a2, a4
	ld	a1, 296(sp)
	mv	s7, a1
	add	t1, t1, a1
	xor	a4, a6, s0
	and	a4, a4, a0
	xor	a4, a4, s0
	add	a4, a4, t1
	lui	a1, 148248
	addi	a1, a1, 1470
	add	a1, a1, a4
	xor	a4, a7, a0
	srliw	a5, a4, 5
	slli	a4, a4, 27
	or	a4, a4, a5
	xor	a2, a2, t4
	srliw	a5, a2, 11
	slli	a2, a2, 21
	or	a2, a2, a5
	xor	a4, a4, a0
	srliw	a5, a4, 6
	slli	a4, a4, 26
	or	a4, a4, a5
	xor	a2, a2, t4
	srliw	a5, a2, 2
	slli	a2, a2, 30
	or	a2, a2, a5
	add	a1, a1, a4
	xor	a5, t4, t2
	and	a3, a3, a5
	xor	a3, a3, t2
	add	a2, a2, a3
	add	t1, a2, a1
	add	a4, a1, s1
	srliw	a1, a4, 14
	slli	a2, a4, 18
	or	a1, a1, a2
	srliw	a2, t1, 9
	slli	a3, t1, 23
	or	a2, a2, a3
	sd	s4, 304(sp)
	add	s0, s0, s4
	xor	a3, a0, a6
	and	a3, a3, a4
	xor	a3, a3, a6
	add	a3, a3, s0
	lui	s1, 348360
	addi	s1, s1, -573
	add	a3, a3, s1
	xor	a1, a1, a4
	srliw	s1, a1, 5
	slli	a1, a1, 27
	or	a1, a1, s1
	xor	a2, a2, t1
	srliw	s1, a2, 11
	slli	a2, a2, 21
	or	a2, a2, s1
	xor	a1, a1, a4
	srliw	s1, a1, 6
	slli	a1, a1, 26
	or	a1, a1, s1
	xor	a2, a2, t1
	srliw	s1, a2, 2
	slli	a2, a2, 30
	or	a2, a2, s1
	add	a1, a1, a3
	xor	a3, t1, t4
	and	a5, a5, a3
	xor	a5, a5, t4
	add	a2, a2, a5
	add	t3, a2, a1
	add	s1, a1, t5
	srliw	a1, s1, 14
	slli	a2, s1, 18
	or	a1, a1, a2
	srliw	a2, t3, 9
	slli	a5, t3, 23
	or	a2, a2, a5
	ld	a5, 384(sp)
	add	a6, a6, a5
	xor	a5, a4, a0
	and	a5, a5, s1
	xor	a5, a5, a0
	add	a5, a5, a6
	lui	s0, 469990
	addi	s0, s0, -652
	add	a5, a5, s0
	xor	a1, a1, s1
	srliw	s0, a1, 5
	slli	a1, a1, 27
	or	a1, a1, s0
	xor	a2, a2, t3
	srliw	s0, a2, 11
	slli	a2, a2, 21
	or	a2, a2, s0
	xor	a1, a1, s1
	srliw	s0, a1, 6
	slli	a1, a1, 26
	or	a1, a1, s0
	xor	a2, a2, t3
	srliw	s0, a2, 2
	slli	a2, a2, 30
	or	a2, a2, s0
	add	a1, a1, a5
	xor	a5, t3, t1
	and	a3, a3, a5
	xor	a3, a3, t1
	add	a2, a2, a3
	add	t5, a2, a1
	add	s3, a1, t2
	srliw	a1, s3, 14
	slli	a2, s3, 18
	or	a1, a1, a2
	srliw	a2, t5, 9
	slli	a3, t5, 23
	or	a2, a2, a3
	ld	a3, 400(sp)
	mv	s9, a3
	add	a0, a0, a3
	xor	a3, s1, a4
	and	a3, s3, a3
	xor	a3, a3, a4
	add	a0, a0, a3
	lui	a3, 527851
	addi	a3, a3, 510
	add	a0, a0, a3
	xor	a1, a1, s3
	srliw	a3, a1, 5
	slli	a1, a1, 27
	or	a1, a1, a3
	xor	a2, a2, t5
	srliw	a3, a2, 11
	slli	a2, a2, 21
	or	a2, a2, a3
	xor	a1, a1, s3
	srliw	a3, a1, 6
	slli	a1, a1, 26
	or	a1, a1, a3
	xor	a2, a2, t5
	srliw	a3, a2, 2
	slli	a2, a2, 30
	or	a2, a2, a3
	add	a0, a0, a1
	xor	a1, t5, t3
	and	a5, a5, a1
	xor	a3, a5, t3
	add	a2, a2, a3
	add	s0, a2, a0
	add	s6, a0, t4
	srliw	a0, s6, 14
	slli	a2, s6, 18
	or	a0, a0, a2
	srliw	a2, s0, 9
	slli	a3, s0, 23
	or	a2, a2, a3
	add	a4, a4, s11
	xor	a3, s3, s1
	and	a3, s6, a3
	xor	a3, a3, s1
	add	a3, a3, a4
	lui	a4, 638400
	addi	a4, a4, 1703
	add	a3, a3, a4
	xor	a0, a0, s6
	srliw	a4, a0, 5
	slli	a0, a0, 27
	or	a0, a0, a4
	xor	a2, a2, s0
	srliw	a4, a2, 11
	slli	a2, a2, 21
	or	a2, a2, a4
	xor	a0, a0, s6
	srliw	a4, a0, 6
	slli	a0, a0, 26
	or	a0, a0, a4
	xor	a2, a2, s0
	srliw	a4, a2, 2
	slli	a2, a2, 30
	or	a2, a2, a4
	add	a0, a0, a3
	xor	a3, s0, t5
	and	a1, a1, a3
	xor	a1, a1, t5
	add	a1, a1, a2
	add	a6, a1, a0
	add	a5, a0, t1
	srliw	a0, a5, 14
	slli	a1, a5, 18
	or	a0, a0, a1
	srliw	a1, a6, 9
	slli	a2, a6, 23
	or	a1, a1, a2
	xor	a2, a6, s0
	and	a2, a2, a3
	add	s1, s1, t6
	xor	a3, s6, s3
	and	a3, a3, a5
	xor	a3, a3, s3
	add	a3, a3, s1
	lui	a4, 793023
	addi	a4, a4, 372
	add	a3, a3, a4
	xor	a0, a0, a5
	srliw	a4, a0, 5
	slli	a0, a0, 27
	or	a0, a0, a4
	xor	a1, a1, a6
	srliw	a4, a1, 11
	slli	a1, a1, 21
	or	a1, a1, a4
	xor	a0, a0, a5
	srliw	a4, a0, 6
	slli	a0, a0, 26
	or	a0, a0, a4
	xor	a1, a1, a6
	srliw	a4, a1, 2
	slli	a1, a1, 30
	or	a1, a1, a4
	add	a0, a0, a3
	xor	a2, a2, s0
	add	a1, a1, a2
	add	a4, a1, a0
	add	s1, a0, t3
.Lnoise_pcrel_hi32:
	auipc	a0, %pcrel_hi(.Lnoise_static.99)
	addi	a0, a0, %pcrel_lo(.Lnoise_pcrel_hi32)
	sd	a0, 96(sp)
	addi	t0, a0, 124
.Lnoise_BB35_1:
	sd	a6, 152(sp)
	sd	a5, 160(sp)
	sd	s0, 288(sp)
	sd	t5, 296(sp)
	sd	t0, 400(sp)
	srliw	a0, s11, 2
	slli	a1, s11, 30
	ld	t2, 328(sp)
	srliw	a2, t2, 11
	slli	a3, t2, 21
	or	a0, a0, a1
	sd	a0, 176(sp)
	srliw	a0, s1, 14
	or	a2, a2, a3
	sd	a2, 256(sp)
	slli	a1, s1, 18
	or	t4, a1, a0
	srliw	a0, a4, 9
	slli	a1, a4, 23
	or	a0, a0, a1
	sd	a0, 240(sp)
	srliw	a0, t6, 2
	slli	a1, t6, 30
	or	a0, a0, a1
	sd	a0, 280(sp)
	ld	a6, 368(sp)
	srliw	a0, a6, 11
	slli	a1, a6, 21
	or	a0, a0, a1
	sd	a0, 272(sp)
	ld	ra, 312(sp)
	srliw	a0, ra, 11
	slli	a1, ra, 21
	or	a0, a0, a1
	sd	a0, 264(sp)
	ld	t3, 320(sp)
	srliw	a0, t3, 11
	slli	a1, t3, 21
	or	a0, a0, a1
	sd	a0, 248(sp)
	ld	a1, 360(sp)
	srliw	a0, a1, 11
	slli	a1, a1, 21
	or	a0, a0, a1
	sd	a0, 232(sp)
	ld	a1, 392(sp)
	srliw	a0, a1, 11
	slli	a1, a1, 21
	or	a0, a0, a1
	sd	a0, 224(sp)
	ld	s4, 352(sp)
	srliw	a0, s4, 11
	slli	a1, s4, 21
	or	a0, a0, a1
	sd	a0, 216(sp)
	ld	a1, 376(sp)
	srliw	a0, a1, 11
	slli	a1, a1, 21
	or	a0, a0, a1
	sd	a0, 208(sp)
	sd	s5, 344(sp)
	srliw	a0, s5, 11
	slli	a1, s5, 21
	or	a0, a0, a1
	sd	a0, 200(sp)
	mv	s10, s7
	srliw	a0, s7, 11
	slli	a1, s7, 21
	or	a0, a0, a1
	sd	a0, 192(sp)
	ld	t1, 304(sp)
	srliw	a0, t1, 11
	slli	a1, t1, 21
	or	a0, a0, a1
	sd	a0, 184(sp)
	ld	a1, 384(sp)
	srliw	a0, a1, 11
	slli	a1, a1, 21
	or	a0, a0, a1
	sd	a0, 168(sp)
	mv	s7, s9
	srliw	a0, s9, 11
	slli	a1, s9, 21
	or	a0, a0, a1
	sd	a0, 112(sp)
	srliw	a0, s11, 11
	slli	a1, s11, 21
	or	a1, a1, a0
	srliw	a0, t6, 11
	slli	a3, t6, 21
	or	a3, a3, a0
	xor	a0, s6, a5
	mv	s0, s1
	sd	s1, 136(sp)
	and	a0, a0, s1
	xor	a0, a0, s6
	add	a0, a0, s3
	ld	a2, 176(sp)
	xor	a2, a2, s11
	mv	s2, a4
	sd	a4, 120(sp)
	srliw	a4, a2, 17
	slli	a2, a2, 15
	or	s1, a2, a4
	ld	a2, 256(sp)
	xor	a2, a2, t2
	srliw	a4, a2, 7
	slli	a2, a2, 25
	or	a5, a2, a4
	xor	a2, t4, s0
	srliw	a4, a2, 5
	slli	a2, a2, 27
	or	a2, a2, a4
	sd	a2, 128(sp)
	lw	a2, -60(t0)
	lw	t4, -56(t0)
	lw	a4, -52(t0)
	sd	a4, 176(sp)
	lw	a4, -48(t0)
	sd	a4, 256(sp)
	add	a0, a0, a2
	sd	a0, 144(sp)
	ld	a0, 240(sp)
	xor	a0, a0, s2
	srliw	a4, a0, 11
	slli	a0, a0, 21
	or	a0, a0, a4
	sd	a0, 240(sp)
	ld	a0, 280(sp)
	xor	a0, a0, t6
	srliw	a4, a0, 17
	slli	a0, a0, 15
	or	a0, a0, a4
	sd	a0, 104(sp)
	ld	a0, 272(sp)
	xor	a0, a0, a6
	srliw	s5, a0, 7
	slli	a0, a0, 25
	or	t5, a0, s5
	add	t4, t4, s6
	sd	t4, 280(sp)
	ld	a0, 264(sp)
	xor	a0, a0, ra
	srliw	s6, a0, 7
	slli	a0, a0, 25
	or	a0, a0, s6
	sd	a0, 272(sp)
	mv	t4, t3
	ld	a0, 248(sp)
	xor	a0, a0, t3
	mv	a2, t2
	srliw	s8, a0, 7
	slli	a0, a0, 25
	or	a0, a0, s8
	sd	a0, 248(sp)
	ld	s5, 360(sp)
	ld	a0, 232(sp)
	xor	a0, a0, s5
	mv	t3, a6
	sd	a6, 368(sp)
	srliw	s9, a0, 7
	slli	a0, a0, 25
	or	a0, a0, s9
	sd	a0, 232(sp)
	ld	s8, 392(sp)
	ld	a0, 224(sp)
	xor	a0, a0, s8
	mv	a7, s11
	srliw	s11, a0, 7
	slli	a0, a0, 25
	or	s6, a0, s11
	mv	a4, s4
	sd	s4, 352(sp)
	ld	a0, 216(sp)
	xor	a0, a0, s4
	srliw	s4, a0, 7
	slli	a0, a0, 25
	or	a0, a0, s4
	sd	a0, 216(sp)
	ld	s11, 376(sp)
	ld	a0, 208(sp)
	xor	a0, a0, s11
	srliw	s3, a0, 7
	slli	a0, a0, 25
	or	a0, a0, s3
	sd	a0, 208(sp)
	ld	t2, 344(sp)
	ld	a0, 200(sp)
	xor	a0, a0, t2
	mv	s2, t6
	srliw	t6, a0, 7
	slli	a0, a0, 25
	or	s9, a0, t6
	mv	a6, s10
	ld	a0, 192(sp)
	xor	s0, a0, s10
	srliw	a0, s0, 7
	slli	s0, s0, 25
	or	s3, s0, a0
	ld	s0, 184(sp)
	xor	s0, s0, t1
	srliw	s10, s0, 7
	slli	s0, s0, 25
	or	s4, s0, s10
	ld	a0, 384(sp)
	ld	s0, 168(sp)
	xor	s0, s0, a0
	srliw	t0, s0, 7
	slli	s0, s0, 25
	or	s10, s0, t0
	mv	t0, s7
	ld	s0, 112(sp)
	xor	s0, s0, s7
	srliw	s7, s0, 7
	slli	s0, s0, 25
	or	s0, s0, s7
	sd	s0, 200(sp)
	xor	a1, a1, a7
	srliw	s7, a1, 7
	slli	a1, a1, 25
	or	t6, a1, s7
	xor	a1, a3, s2
	srliw	a3, a1, 7
	slli	a1, a1, 25
	or	a1, a1, a3
	sd	a1, 184(sp)
	srliw	a1, a7, 10
	xor	a1, a1, s1
	sd	a1, 192(sp)
	srliw	s1, a2, 3
	mv	s0, a2
	xor	a5, a5, s1
	sd	a5, 224(sp)
	srliw	a5, s2, 10
	ld	a1, 104(sp)
	xor	a1, a1, a5
	sd	a1, 168(sp)
	srliw	a5, t3, 3
	xor	a1, t5, a5
	sd	a1, 264(sp)
	srliw	a2, ra, 3
	ld	a1, 272(sp)
	xor	s7, a1, a2
	mv	a2, t4
	srliw	a5, t4, 3
	ld	a1, 248(sp)
	xor	t5, a1, a5
	mv	a5, s5
	srliw	s1, s5, 3
	ld	a1, 232(sp)
	xor	s5, a1, s1
	srliw	s1, s8, 3
	xor	s6, s6, s1
	srliw	s1, a4, 3
	ld	a1, 216(sp)
	xor	t3, a1, s1
	srliw	s1, s11, 3
	ld	a1, 208(sp)
	xor	a1, a1, s1
	sd	a1, 272(sp)
	mv	a4, t2
	srliw	s1, t2, 3
	xor	s9, s9, s1
	srliw	s1, a6, 3
	xor	s3, s3, s1
	srliw	s1, t1, 3
	xor	s4, s4, s1
	srliw	s1, a0, 3
	xor	s10, s10, s1
	mv	a1, t0
	srliw	s1, t0, 3
	ld	a3, 200(sp)
	xor	t2, a3, s1
	srliw	s1, a7, 3
	xor	t6, t6, s1
	srliw	s1, s2, 3
	ld	a3, 184(sp)
	xor	t4, a3, s1
	ld	a3, 336(sp)
	add	a3, a3, a4
	mv	s1, a4
	ld	t0, 192(sp)
	add	t0, t0, a3
	add	a3, a6, s0
	mv	s0, a6
	ld	a4, 168(sp)
	add	a3, a3, a4
	ld	a6, 368(sp)
	add	a6, a6, t1
	add	s7, s7, a6
	add	a4, a0, ra
	add	t5, t5, a4
	add	a2, a2, a1
	add	s5, s5, a2
	add	a2, a5, a7
	add	s6, s6, a2
	add	a2, s8, s2
	mv	a6, s2
	add	s8, a2, t3
	add	s11, s11, s9
	add	s1, s1, s3
	sd	s1, 344(sp)
	add	s0, s0, s4
	sd	s0, 360(sp)
	add	t1, t1, s10
	sd	t1, 320(sp)
	add	s0, t2, a0
	sd	s0, 376(sp)
	add	t6, t6, a1
	sd	t6, 392(sp)
	add	a7, a7, t4
	sd	a7, 384(sp)
	ld	t1, 224(sp)
	add	t1, t1, t0
	ld	s2, 136(sp)
	ld	a0, 128(sp)
	xor	a0, a0, s2
	srliw	a1, a0, 6
	slli	a0, a0, 26
	or	a0, a0, a1
	ld	t6, 120(sp)
	ld	a1, 240(sp)
	xor	a1, a1, t6
	srliw	a2, a1, 2
	slli	a1, a1, 30
	or	a2, a2, a1
	ld	t2, 264(sp)
	add	t2, t2, a3
	ld	a1, 144(sp)
	add	a0, a0, a1
	ld	ra, 152(sp)
	xor	a7, ra, t6
	ld	t0, 288(sp)
	xor	a3, t0, ra
	and	a3, a3, a7
	xor	a5, a3, ra
	add	a5, a5, a2
	srliw	a2, t1, 2
	slli	a3, t1, 30
	or	a2, a2, a3
	srliw	a3, t2, 2
	slli	s1, t2, 30
	or	a1, s1, a3
	ld	a3, 352(sp)
	add	a3, a3, t1
	ld	s10, 272(sp)
	add	s10, s10, a3
	srliw	a3, t1, 11
	slli	s1, t1, 21
	or	a3, a3, s1
	add	a0, a0, t1
	add	t3, a5, a0
	ld	s1, 296(sp)
	add	s1, s1, a0
	srliw	a0, s1, 14
	slli	a5, s1, 18
	or	a5, a5, a0
	ld	s9, 176(sp)
	ld	a0, 160(sp)
	add	s9, s9, a0
	xor	s0, a0, s2
	and	s0, s0, s1
	xor	s0, s0, a0
	srliw	a4, t3, 9
	slli	a0, t3, 23
	or	a0, a0, a4
	xor	a2, a2, t1
	srliw	a4, a2, 17
	slli	a2, a2, 15
	or	a2, a2, a4
	xor	a4, a1, t2
	srliw	a1, a4, 17
	slli	a4, a4, 15
	or	a1, a1, a4
	xor	a3, a3, t1
	srliw	a4, a3, 7
	slli	a3, a3, 25
	or	a3, a3, a4
	ld	t4, 280(sp)
	add	t4, t4, t2
	add	t4, t4, s0
	srliw	a4, t1, 10
	xor	a2, a2, a4
	srliw	a4, t2, 10
	xor	a1, a1, a4
	sd	t1, 336(sp)
	srliw	a4, t1, 3
	xor	a3, a3, a4
	add	s3, s7, a2
	add	s4, t5, a1
	add	a3, a3, a6
	sd	a3, 352(sp)
	xor	a5, a5, s1
	srliw	a1, a5, 5
	slli	a5, a5, 27
	or	a1, a1, a5
	xor	a0, a0, t3
	srliw	a2, a0, 11
	slli	a0, a0, 21
	or	a0, a0, a2
	srliw	a2, s3, 2
	slli	a3, s3, 30
	or	a2, a2, a3
	srliw	a3, s4, 2
	slli	a4, s4, 30
	or	a4, a4, a3
	xor	a1, a1, s1
	srliw	a3, a1, 6
	slli	a1, a1, 26
	or	a1, a1, a3
	xor	a0, a0, t3
	srliw	a3, a0, 2
	slli	a0, a0, 30
	or	a0, a0, a3
	add	a6, t4, a1
	xor	a3, t3, t6
	and	a1, a3, a7
	xor	a1, a1, t6
	add	a0, a0, a1
	xor	a1, a2, s3
	srliw	a2, a1, 17
	slli	a1, a1, 15
	or	a2, a2, a1
	xor	a1, a4, s4
	srliw	a4, a1, 17
	slli	a1, a1, 15
	or	a4, a4, a1
	add	t5, a0, a6
	add	a6, a6, t0
	srliw	a0, s3, 10
	xor	a0, a0, a2
	srliw	a2, s4, 10
	xor	a2, a2, a4
	mv	a1, s2
	ld	t0, 256(sp)
	add	t0, t0, s2
	add	s5, s5, a0
	srliw	a0, a6, 14
	add	s2, s6, a2
	slli	a2, a6, 18
	or	a0, a0, a2
	xor	a2, s1, a1
	and	a2, a6, a2
	xor	a2, a2, a1
	srliw	a5, t5, 9
	slli	a1, t5, 23
	or	a1, a1, a5
	add	a7, s9, s3
	add	a7, a7, a2
	srliw	a2, s5, 2
	slli	a5, s5, 30
	or	a2, a2, a5
	srliw	a5, s2, 2
	slli	s0, s2, 30
	or	a5, a5, s0
	xor	a0, a0, a6
	srliw	s0, a0, 5
	slli	a0, a0, 27
	or	a0, a0, s0
	xor	a1, a1, t5
	srliw	s0, a1, 11
	slli	a1, a1, 21
	or	a1, a1, s0
	xor	a2, a2, s5
	srliw	s0, a2, 17
	slli	a2, a2, 15
	or	a2, a2, s0
	xor	a5, a5, s2
	srliw	s0, a5, 17
	slli	a5, a5, 15
	or	a5, a5, s0
	srliw	s0, s5, 10
	xor	a2, a2, s0
	srliw	s0, s2, 10
	xor	a5, a5, s0
	xor	a0, a0, a6
	srliw	s0, a0, 6
	slli	a0, a0, 26
	or	a0, a0, s0
	xor	a1, a1, t5
	srliw	s0, a1, 2
	slli	a1, a1, 30
	or	a1, a1, s0
	add	s8, s8, a2
	add	t1, s10, a5
	xor	a2, t5, t3
	and	a3, a3, a2
	xor	a3, a3, t3
	add	a0, a0, a7
	add	a1, a1, a3
	srliw	a3, s8, 2
	slli	a5, s8, 30
	add	s6, a1, a0
	add	a7, a0, ra
	srliw	a0, t1, 2
	or	a5, a5, a3
	slli	a1, t1, 30
	or	a1, a1, a0
	srliw	a0, a7, 14
	slli	a3, a7, 18
	or	a0, a0, a3
	ld	a3, 400(sp)
	lw	t4, -44(a3)
	ld	a3, 400(sp)
	lw	a3, -40(a3)
	ld	a4, 400(sp)
	lw	ra, -36(a4)
	ld	a4, 400(sp)
	lw	a4, -32(a4)
	sd	a4, 304(sp)
	add	t4, t4, s1
	xor	a4, a6, s1
	and	a4, a7, a4
	xor	a4, a4, s1
	srliw	s1, s6, 9
	slli	s0, s6, 23
	or	s0, s0, s1
	add	t0, t0, s4
	add	a4, a4, t0
	xor	a5, a5, s8
	srliw	s1, a5, 17
	slli	a5, a5, 15
	or	a5, a5, s1
	xor	a1, a1, t1
	srliw	s1, a1, 17
	slli	a1, a1, 15
	or	a1, a1, s1
	srliw	s1, s8, 10
	xor	a5, a5, s1
	srliw	s1, t1, 10
	xor	a1, a1, s1
	xor	a0, a0, a7
	srliw	s1, a0, 5
	slli	a0, a0, 27
	or	a0, a0, s1
	xor	s1, s0, s6
	srliw	s0, s1, 11
	slli	s1, s1, 21
	or	s0, s0, s1
	sd	t2, 328(sp)
	add	s9, t2, s11
	add	s9, s9, a5
	sd	s3, 368(sp)
	ld	s11, 344(sp)
	add	s11, s11, s3
	add	s11, s11, a1
	srliw	a1, s9, 2
	slli	a5, s9, 30
	or	a1, a1, a5
	srliw	a5, s11, 2
	slli	s1, s11, 30
	or	a5, a5, s1
	xor	a0, a0, a7
	srliw	s1, a0, 6
	slli	a0, a0, 26
	or	a0, a0, s1
	xor	s1, s0, s6
	srliw	s0, s1, 2
	slli	s1, s1, 30
	or	s0, s0, s1
	add	a0, a0, a4
	xor	a4, s6, t5
	and	a2, a2, a4
	xor	a2, a2, t5
	add	a2, a2, s0
	add	s7, a2, a0
	add	t0, a0, t6
	xor	a0, a1, s9
	srliw	a1, a0, 17
	slli	a0, a0, 15
	or	a0, a0, a1
	xor	a1, a5, s11
	srliw	a2, a1, 17
	slli	a1, a1, 15
	or	a1, a1, a2
	srliw	a2, s9, 10
	xor	a0, a0, a2
	srliw	a2, s11, 10
	xor	a1, a1, a2
	srliw	a2, t0, 14
	slli	a5, t0, 18
	or	a2, a2, a5
	add	t2, a3, a6
	xor	a3, a7, a6
	and	a3, t0, a3
	xor	a3, a3, a6
	srliw	a5, s7, 9
	slli	s1, s7, 23
	or	a5, a5, s1
	sd	s4, 312(sp)
	ld	s1, 360(sp)
	add	s4, s4, s1
	add	s4, s4, a0
	ld	s10, 320(sp)
	add	s10, s10, s5
	add	a6, s10, a1
	sd	s5, 320(sp)
	add	t4, t4, s5
	add	a3, a3, t4
	srliw	a0, s4, 2
	slli	a1, s4, 30
	or	a0, a0, a1
	srliw	a1, a6, 2
	slli	s1, a6, 30
	or	a1, a1, s1
	xor	a2, a2, t0
	srliw	s1, a2, 5
	slli	a2, a2, 27
	or	a2, a2, s1
	xor	a5, a5, s7
	srliw	s1, a5, 11
	slli	a5, a5, 21
	or	a5, a5, s1
	xor	a0, a0, s4
	srliw	s1, a0, 17
	slli	a0, a0, 15
	or	a0, a0, s1
	xor	a1, a1, a6
	srliw	s1, a1, 17
	slli	a1, a1, 15
	or	a1, a1, s1
	xor	a2, a2, t0
	srliw	s1, a2, 6
	slli	a2, a2, 26
	or	a2, a2, s1
	xor	a5, a5, s7
	srliw	s1, a5, 2
	slli	a5, a5, 30
	or	a5, a5, s1
	srliw	s1, s4, 10
	xor	a0, a0, s1
	srliw	s1, a6, 10
	xor	a1, a1, s1
	add	a2, a2, a3
	xor	s1, s7, s6
	and	a4, a4, s1
	xor	a3, a4, s6
	add	a3, a3, a5
	ld	s3, 376(sp)
	add	s3, s3, s2
	add	s10, s3, a0
	ld	t6, 392(sp)
	add	t6, t6, s8
	add	t6, t6, a1
	add	t4, a3, a2
	add	a4, a2, t3
	srliw	a0, s10, 2
	slli	a1, s10, 30
	or	a0, a0, a1
	srliw	a1, t6, 2
	slli	a2, t6, 30
	or	a1, a1, a2
	srliw	a2, a4, 14
	slli	a5, a4, 18
	or	a2, a2, a5
	sd	s8, 392(sp)
	add	a5, ra, s8
	add	t3, a7, a5
	xor	s0, t0, a7
	and	s0, s0, a4
	xor	s0, s0, a7
	srliw	a5, t4, 9
	slli	a3, t4, 23
	or	a3, a3, a5
	sd	s2, 360(sp)
	add	s2, s2, t2
	add	s0, s0, s2
	xor	a0, a0, s10
	srliw	a5, a0, 17
	slli	a0, a0, 15
	or	a0, a0, a5
	mv	s8, t6
	xor	a1, a1, t6
	srliw	a5, a1, 17
	slli	a1, a1, 15
	or	a1, a1, a5
	xor	a2, a2, a4
	srliw	a5, a2, 5
	slli	a2, a2, 27
	or	a2, a2, a5
	xor	a3, a3, t4
	srliw	a5, a3, 11
	slli	a3, a3, 21
	or	a3, a3, a5
	srliw	a5, s10, 10
	xor	a0, a0, a5
	srliw	a5, t6, 10
	xor	a1, a1, a5
	ld	a5, 384(sp)
	add	a5, a5, t1
	add	s2, a5, a0
	ld	ra, 352(sp)
	add	ra, ra, s9
	add	ra, ra, a1
	xor	a2, a2, a4
	srliw	a0, a2, 6
	slli	a2, a2, 26
	or	a0, a0, a2
	xor	a1, a3, t4
	srliw	a2, a1, 2
	slli	a1, a1, 30
	or	a1, a1, a2
	sd	t1, 352(sp)
	ld	s5, 304(sp)
	add	s5, s5, t1
	add	s5, s5, t0
	add	a2, s0, a0
	xor	a3, t4, s7
	and	s1, s1, a3
	xor	a0, s1, s7
	add	a0, a0, a1
	add	a7, a0, a2
	add	t1, a2, t5
	srliw	a1, t1, 14
	slli	a5, t1, 18
	or	a1, a1, a5
	xor	a5, a4, t0
	and	a5, t1, a5
	xor	a5, a5, t0
	srliw	s1, a7, 9
	slli	a0, a7, 23
	or	a0, a0, s1
	xor	a1, a1, t1
	add	a5, a5, t3
	xor	a0, a0, a7
	srliw	s1, a1, 5
	slli	a1, a1, 27
	or	a1, a1, s1
	srliw	s1, a0, 11
	slli	a0, a0, 21
	or	a0, a0, s1
	xor	a1, a1, t1
	xor	a0, a0, a7
	srliw	s1, a1, 6
	slli	a1, a1, 26
	or	a1, a1, s1
	srliw	s1, a0, 2
	slli	a0, a0, 30
	or	a0, a0, s1
	xor	s1, a7, t4
	and	a3, a3, s1
	xor	a3, a3, t4
	add	a5, a5, a1
	add	a0, a0, a3
	add	t3, a0, a5
	add	s0, a5, s6
	srliw	a0, s0, 14
	slli	a3, s0, 18
	or	a0, a0, a3
	ld	a1, 400(sp)
	lw	a3, -28(a1)
	ld	a1, 400(sp)
	lw	a5, -24(a1)
	ld	a1, 400(sp)
	lw	t0, -20(a1)
	ld	a1, 400(sp)
	lw	t5, -16(a1)
	sd	s9, 376(sp)
	add	a3, a3, s9
	add	t2, a3, a4
	xor	a2, t1, a4
	and	a2, a2, s0
	xor	a2, a2, a4
	srliw	a4, t3, 9
	slli	a1, t3, 23
	or	a1, a1, a4
	add	a2, a2, s5
	xor	a0, a0, s0
	srliw	a4, a0, 5
	slli	a0, a0, 27
	or	a0, a0, a4
	xor	a1, a1, t3
	srliw	a4, a1, 11
	slli	a1, a1, 21
	or	a1, a1, a4
	xor	a0, a0, s0
	srliw	a4, a0, 6
	slli	a0, a0, 26
	or	a0, a0, a4
	xor	a1, a1, t3
	srliw	a4, a1, 2
	slli	a1, a1, 30
	or	a1, a1, a4
	add	a0, a0, a2
	xor	t6, t3, a7
	and	s1, t6, s1
	xor	a4, s1, a7
	add	a1, a1, a4
	add	s3, a1, a0
	add	s1, a0, s7
	srliw	a0, s1, 14
	slli	a1, s1, 18
	or	a0, a0, a1
	mv	s5, s11
	add	a5, a5, s11
	mv	s11, s2
	add	s2, a5, t1
	xor	a1, s0, t1
	and	a1, a1, s1
	xor	a1, a1, t1
	srliw	a3, s3, 9
	slli	a4, s3, 23
	or	a3, a3, a4
	add	a1, a1, t2
	xor	a0, a0, s1
	srliw	a4, a0, 5
	slli	a0, a0, 27
	or	a0, a0, a4
	xor	a3, a3, s3
	srliw	a4, a3, 11
	slli	a3, a3, 21
	or	a3, a3, a4
	xor	a0, a0, s1
	srliw	a4, a0, 6
	slli	a0, a0, 26
	or	a0, a0, a4
	xor	a3, a3, s3
	srliw	a4, a3, 2
	slli	a3, a3, 30
	or	a3, a3, a4
	add	a0, a0, a1
	xor	a1, s3, t3
	and	a4, a1, t6
	xor	a4, a4, t3
	add	a3, a3, a4
	add	t2, a3, a0
	add	a2, a0, t4
	srliw	a0, a2, 14
	slli	a4, a2, 18
	or	a0, a0, a4
	mv	s7, s4
	add	t0, t0, s4
	add	t0, t0, s0
	xor	a4, s1, s0
	and	a4, a4, a2
	xor	a4, a4, s0
	srliw	s0, t2, 9
	slli	a5, t2, 23
	or	a5, a5, s0
	add	a4, a4, s2
	xor	a0, a0, a2
	srliw	s0, a0, 5
	slli	a0, a0, 27
	or	a0, a0, s0
	xor	a5, a5, t2
	srliw	s0, a5, 11
	slli	a5, a5, 21
	or	a5, a5, s0
	xor	a0, a0, a2
	srliw	s0, a0, 6
	slli	a0, a0, 26
	or	a0, a0, s0
	xor	a5, a5, t2
	srliw	s0, a5, 2
	slli	a5, a5, 30
	or	a5, a5, s0
	sd	a6, 304(sp)
	add	a6, a6, t5
	add	a6, a6, s1
	add	a0, a0, a4
	xor	a4, t2, s3
	and	a1, a1, a4
	xor	a1, a1, s3
	add	a1, a1, a5
	add	t4, a1, a0
	add	a5, a0, a7
	srliw	a0, a5, 14
	slli	a1, a5, 18
	or	a0, a0, a1
	xor	a1, a2, s1
	and	a1, a1, a5
	xor	a1, a1, s1
	srliw	s1, t4, 9
	slli	s0, t4, 23
	or	s0, s0, s1
	xor	a0, a0, a5
	add	a1, a1, t0
	xor	s1, s0, t4
	srliw	s0, a0, 5
	slli	a0, a0, 27
	or	a0, a0, s0
	srliw	s0, s1, 11
	slli	s1, s1, 21
	or	s0, s0, s1
	xor	a0, a0, a5
	xor	s1, s0, t4
	srliw	s0, a0, 6
	slli	a0, a0, 26
	or	a0, a0, s0
	srliw	s0, s1, 2
	slli	s1, s1, 30
	or	s0, s0, s1
	xor	s1, t4, t2
	and	a4, a4, s1
	xor	a4, a4, t2
	add	a0, a0, a1
	add	a4, a4, s0
	add	t1, a4, a0
	add	a1, a0, t3
	srliw	a0, a1, 14
	slli	a4, a1, 18
	or	a0, a0, a4
	ld	a3, 400(sp)
	lw	s0, -12(a3)
	ld	a3, 400(sp)
	lw	a4, -8(a3)
	ld	a3, 400(sp)
	lw	t0, -4(a3)
	ld	a3, 400(sp)
	lw	a7, 0(a3)
	sd	s10, 384(sp)
	add	s0, s0, s10
	add	t6, s0, a2
	xor	a3, a5, a2
	and	a3, a3, a1
	xor	a2, a2, a3
	srliw	a3, t1, 9
	slli	s0, t1, 23
	or	a3, a3, s0
	add	a2, a2, a6
	xor	a0, a0, a1
	srliw	s0, a0, 5
	slli	a0, a0, 27
	or	a0, a0, s0
	xor	a3, a3, t1
	srliw	s0, a3, 11
	slli	a3, a3, 21
	or	a3, a3, s0
	xor	a0, a0, a1
	srliw	s0, a0, 6
	slli	a0, a0, 26
	or	a0, a0, s0
	xor	a3, a3, t1
	srliw	s0, a3, 2
	slli	a3, a3, 30
	or	a3, a3, s0
	add	a0, a0, a2
	xor	s0, t1, t4
	and	s1, s1, s0
	xor	a2, s1, t4
	add	a2, a2, a3
	add	t3, a2, a0
	add	a2, a0, s3
	srliw	a0, a2, 14
	slli	a3, a2, 18
	or	a0, a0, a3
	mv	s9, s8
	add	a4, a4, s8
	add	a4, a4, a5
	xor	a3, a1, a5
	and	a3, a3, a2
	xor	a3, a3, a5
	srliw	a5, t3, 9
	slli	s1, t3, 23
	or	a5, a5, s1
	add	a3, a3, t6
	mv	t6, ra
	xor	a0, a0, a2
	srliw	s1, a0, 5
	slli	a0, a0, 27
	or	a0, a0, s1
	xor	a5, a5, t3
	srliw	s1, a5, 11
	slli	a5, a5, 21
	or	a5, a5, s1
	xor	a0, a0, a2
	srliw	s1, a0, 6
	slli	a0, a0, 26
	or	a0, a0, s1
	xor	a5, a5, t3
	srliw	s1, a5, 2
	slli	a5, a5, 30
	or	a5, a5, s1
	add	a0, a0, a3
	xor	s1, t3, t1
	and	s0, s0, s1
	xor	a3, s0, t1
	add	a3, a3, a5
	add	t5, a3, a0
	add	s3, a0, t2
	srliw	a0, s3, 14
	slli	a3, s3, 18
	or	a0, a0, a3
	add	a3, s11, t0
	ld	t0, 400(sp)
	add	a3, a3, a1
	xor	a5, a2, a1
	and	a5, s3, a5
	xor	a1, a1, a5
	srliw	a5, t5, 9
	slli	s0, t5, 23
	or	a5, a5, s0
	add	a1, a1, a4
	xor	a0, a0, s3
	srliw	a4, a0, 5
	slli	a0, a0, 27
	or	a0, a0, a4
	xor	a4, a5, t5
	srliw	a5, a4, 11
	slli	a4, a4, 21
	or	a4, a4, a5
	xor	a0, a0, s3
	srliw	a5, a0, 6
	slli	a0, a0, 26
	or	a5, a5, a0
	xor	a0, a4, t5
	srliw	a4, a0, 2
	slli	a0, a0, 30
	or	a4, a4, a0
	add	a0, ra, a7
	add	a0, a0, a2
	add	a1, a1, a5
	xor	a5, t5, t3
	and	s1, s1, a5
	xor	s1, s1, t3
	add	a4, a4, s1
	add	s0, a4, a1
	add	s6, a1, t4
	srliw	a1, s6, 14
	slli	a4, s6, 18
	or	a1, a1, a4
	xor	a4, s3, a2
	and	a4, s6, a4
	xor	a2, a2, a4
	srliw	a4, s0, 9
	slli	s1, s0, 23
	or	a4, a4, s1
	xor	a1, a1, s6
	add	a2, a2, a3
	xor	a3, a4, s0
	srliw	a4, a1, 5
	slli	a1, a1, 27
	or	a1, a1, a4
	srliw	a4, a3, 11
	slli	a3, a3, 21
	or	a3, a3, a4
	xor	a1, a1, s6
	xor	a3, a3, s0
	srliw	a4, a1, 6
	slli	a1, a1, 26
	or	a1, a1, a4
	srliw	a4, a3, 2
	slli	a3, a3, 30
	or	a3, a3, a4
	xor	a4, s0, t5
	and	a5, a5, a4
	xor	a5, a5, t5
	add	a1, a1, a2
	add	a3, a3, a5
	add	a6, a3, a1
	add	a5, a1, t1
	srliw	a1, a5, 14
	slli	a2, a5, 18
	srliw	a3, a6, 9
	or	a1, a1, a2
	slli	a2, a6, 23
	or	a2, a2, a3
	xor	a3, a6, s0
	and	a3, a3, a4
	xor	a4, s6, s3
	and	a4, a4, a5
	xor	a4, a4, s3
	xor	a1, a1, a5
	add	a0, a0, a4
	xor	a2, a2, a6
	srliw	a4, a1, 5
	slli	a1, a1, 27
	or	a1, a1, a4
	srliw	a4, a2, 11
	slli	a2, a2, 21
	or	a2, a2, a4
	xor	a1, a1, a5
	xor	a2, a2, a6
	srliw	a4, a1, 6
	slli	a1, a1, 26
	or	a1, a1, a4
	srliw	a4, a2, 2
	slli	a2, a2, 30
	or	a2, a2, a4
	add	a0, a0, a1
	addi	t0, t0, 64
	xor	a1, a3, s0
	add	a1, a1, a2
	ld	a2, 96(sp)
	addi	a2, a2, 316
	add	a4, a1, a0
	add	s1, a0, t3
	bne	t0, a2, .Lnoise_BB35_1
	ld	a0, 24(sp)
	add	a0, a0, a4
	ld	a1, 72(sp)
	add	a1, a1, a6
	ld	a2, 64(sp)
	add	a2, a2, s0
	ld	a3, 56(sp)
	add	a3, a3, t5
	ld	a4, 32(sp)
	add	t3, s1, a4
	ld	a4, 88(sp)
	add	a4, a4, a5
	ld	a5, 40(sp)
	add	s6, s6, a5
	ld	a5, 80(sp)
	add	t2, s3, a5
	ld	a5, 48(sp)
	sw	a0, 0(a5)
	sw	a1, 4(a5)
	sw	a2, 8(a5)
	sw	a3, 12(a5)
	sw	t3, 16(a5)
	sw	a4, 20(a5)
	sw	s6, 24(a5)
	sw	t2, 28(a5)
	ld	ra, 504(sp)
	ld	s0, 496(sp)
	ld	s1, 488(sp)
	ld	s2, 480(sp)
	ld	s3, 472(sp)
	ld	s4, 464(sp)
	ld	s5, 456(sp)
	ld	s6, 448(sp)
	ld	s7, 440(sp)
	ld	s8, 432(sp)
	ld	s9, 424(sp)
	ld	s10, 416(sp)
	ld	s11, 408(sp)
	.cfi_restore ra
	.cfi_restore s0
	.cfi_restore s1
	.cfi_restore s2
	.cfi_restore s3
	.cfi_restore s4
	.cfi_restore s5
	.cfi_restore s6
	.cfi_restore s7
	.cfi_restore s8
	.cfi_restore s9
	.cfi_restore s10
	.cfi_restore s11
	addi	sp, sp, 512
	.cfi_def_cfa_offset 0
	ret
.Lnoise_func_end35:
	.size	noise_sha2_block256_compress, .Lnoise_func_end35-noise_sha2_block256_compress
	.cfi_endproc

	.section	".text.noise_state::symmetric::SymmetricState::mix_key_and_hash","ax",@progbits
	.p2align	1
	.type	noise_noise_state_symmetric_SymmetricState_mix_key_and_hash,@function
noise_noise_state_symmetric_SymmetricState_mix_key_and_hash:
	.cfi_startproc
	addi	sp, sp, -832
	.cfi_def_cfa_offset 832
	sd	ra, 824(sp)
	sd	s0, 816(sp)
	sd	s1, 808(sp)
	sd	s2, 800(sp)
	sd	s3, 792(sp)
	.cfi_offset ra, -8
	.cfi_offset s0, -16
	.cfi_offset s1, -24
	.cfi_offset s2, -32
	.cfi_offset s3, -40
	mv	s1, a1
	mv	s0, a0
	sd	zero, 296(sp)
	sd	zero, 304(sp)
	sd	zero, 312(sp)
	sd	zero, 320(sp)
	addi	a0, sp, 88
	li	a2, 208
	li	a1, 0
	call	memset
	li	s3, 32
	sd	s1, 72(sp)
	sd	s3, 80(sp)
	sd	zero, 632(sp)
	sd	zero, 640(sp)
	sd	zero, 648(sp)
	sd	zero, 656(sp)
	addi	a0, sp, 424
	li	a2, 208
	li	a1, 0
	call	memset
	addi	a0, sp, 424
	mv	a1, s0
	call	noise_noise_kdf_keyed_Hmac_new
	addi	a0, sp, 632
	addi	a1, sp, 424
	addi	a2, sp, 72
	li	a3, 1
	li	s2, 1
	call	noise_noise_kdf_keyed_Hmac_code
	addi	a0, sp, 88
	addi	a1, sp, 632
	call	noise_noise_kdf_keyed_Hmac_new
	sd	zero, 728(sp)
	sd	zero, 736(sp)
	sd	zero, 744(sp)
	sd	zero, 752(sp)
	sd	zero, 696(sp)
	sd	zero, 704(sp)
	sd	zero, 712(sp)
	sd	zero, 720(sp)
.Lnoise_pcrel_hi33:
	auipc	a2, %pcrel_hi(.Lnoise_static.102)
	addi	a0, sp, 696
	addi	a1, sp, 88
	addi	a2, a2, %pcrel_lo(.Lnoise_pcrel_hi33)
	li	a3, 1
	call	noise_noise_kdf_keyed_Hmac_code
	ld	a0, 696(sp)
	ld	a1, 704(sp)
	ld	a2, 712(sp)
	ld	a3, 720(sp)
	addi	s1, sp, 760
	sd	a0, 760(sp)
	sd	a1, 768(sp)
	sd	a2, 776(sp)
	sd	a3, 784(sp)
.Lnoise_pcrel_hi34:
	auipc	a0, %pcrel_hi(.Lnoise_static.103)
	addi	a0, a0, %pcrel_lo(.Lnoise_pcrel_hi34)
	sd	s1, 664(sp)
	sd	s3, 672(sp)
	sd	a0, 680(sp)
	sd	s2, 688(sp)
	addi	a0, sp, 728
	addi	a1, sp, 88
	addi	a2, sp, 664
	li	a3, 2
	call	noise_noise_kdf_keyed_Hmac_code
	ld	a0, 760(sp)
	ld	a1, 768(sp)
	ld	a2, 776(sp)
	ld	a3, 784(sp)
	sd	a0, 424(sp)
	sd	a1, 432(sp)
	sd	a2, 440(sp)
	sd	a3, 448(sp)
	addi	a0, sp, 456
	addi	a1, sp, 728
	li	a2, 32
	call	memcpy
	ld	a0, 424(sp)
	ld	a1, 432(sp)
	ld	a2, 440(sp)
	ld	a3, 448(sp)
	sd	a0, 392(sp)
	sd	a1, 400(sp)
	sd	a2, 408(sp)
	sd	a3, 416(sp)
	ld	a0, 456(sp)
	ld	a1, 464(sp)
	ld	a2, 472(sp)
	ld	a3, 480(sp)
	sd	a0, 760(sp)
	sd	a1, 768(sp)
	sd	a2, 776(sp)
	sd	a3, 784(sp)
.Lnoise_pcrel_hi35:
	auipc	a0, %pcrel_hi(.Lnoise_static.101)
	addi	a0, a0, %pcrel_lo(.Lnoise_pcrel_hi35)
	sd	s1, 728(sp)
	sd	s3, 736(sp)
	sd	a0, 744(sp)
	sd	s2, 752(sp)
	addi	a0, sp, 296
	addi	a1, sp, 88
	addi	a2, sp, 728
	li	a3, 2
	call	noise_noise_kdf_keyed_Hmac_code
	ld	a0, 760(sp)
	ld	a1, 768(sp)
	ld	a2, 776(sp)
	ld	a3, 784(sp)
	sd	a0, 360(sp)
	sd	a1, 368(sp)
	sd	a2, 376(sp)
	sd	a3, 384(sp)
	ld	a0, 296(sp)
	ld	a1, 304(sp)
	ld	a2, 312(sp)
	ld	a3, 320(sp)
	sd	a0, 328(sp)
	sd	a1, 336(sp)
	sd	a2, 344(sp)
	sd	a3, 352(sp)
	ld	a0, 360(sp)
	ld	a1, 368(sp)
	ld	a2, 376(sp)
	ld	a3, 384(sp)
	sd	a0, 40(sp)
	sd	a1, 48(sp)
	sd	a2, 56(sp)
	sd	a3, 64(sp)
	addi	a1, sp, 392
	li	a2, 32
	mv	a0, s0
	call	memcpy
	addi	s1, s0, 32
	addi	a0, sp, 8
	addi	a2, sp, 40
	li	a3, 32
	mv	a1, s1
	call	noise_noise_state_symmetric_hash_of_both
	addi	a1, sp, 8
	li	a2, 32
	mv	a0, s1
	call	memcpy
	sb	s2, 64(s0)
	addi	a0, s0, 65
	addi	a1, sp, 328
	li	a2, 32
	call	memcpy
	sb	zero, 108(s0)
	sb	zero, 109(s0)
	sb	zero, 110(s0)
	sb	zero, 111(s0)
	sb	zero, 104(s0)
	sb	zero, 105(s0)
	sb	zero, 106(s0)
	sb	zero, 107(s0)
	ld	ra, 824(sp)
	ld	s0, 816(sp)
	ld	s1, 808(sp)
	ld	s2, 800(sp)
	ld	s3, 792(sp)
	.cfi_restore ra
	.cfi_restore s0
	.cfi_restore s1
	.cfi_restore s2
	.cfi_restore s3
	addi	sp, sp, 832
	.cfi_def_cfa_offset 0
	ret
.Lnoise_func_end36:
	.size	noise_noise_state_symmetric_SymmetricState_mix_key_and_hash, .Lnoise_func_end36-noise_noise_state_symmetric_SymmetricState_mix_key_and_hash
	.cfi_endproc

	.section	.rodata.cst8,"aM",@progbits,8
	.p2align	3, 0x0
.Lnoise_CPI37_0:
	.quad	-4942790177982912921
.Lnoise_CPI37_1:
	.quad	-6534734903820487822
.Lnoise_CPI37_2:
	.quad	-7276294671082564993
.Lnoise_CPI37_3:
	.quad	6620516960021240235
	.section	".text.noise_kdf::keyed::Hmac::new","ax",@progbits
	.p2align	1
	.type	noise_noise_kdf_keyed_Hmac_new,@function
noise_noise_kdf_keyed_Hmac_new:
	.cfi_startproc
	addi	sp, sp, -736
	.cfi_def_cfa_offset 736
	sd	ra, 728(sp)
	sd	s0, 720(sp)
	sd	s1, 712(sp)
	sd	s2, 704(sp)
	sd	s3, 696(sp)
	sd	s4, 688(sp)
	sd	s5, 680(sp)
	sd	s6, 672(sp)
	sd	s7, 664(sp)
	sd	s8, 656(sp)
	sd	s9, 648(sp)
	.cfi_offset ra, -8
	.cfi_offset s0, -16
	.cfi_offset s1, -24
	.cfi_offset s2, -32
	.cfi_offset s3, -40
	.cfi_offset s4, -48
	.cfi_offset s5, -56
	.cfi_offset s6, -64
	.cfi_offset s7, -72
	.cfi_offset s8, -80
	.cfi_offset s9, -88
	mv	s1, a1
	mv	s2, a0
	addi	a0, sp, 272
	li	a2, 208
	li	a1, 0
	call	memset
	mv	a0, sp
	li	a2, 104
	li	a1, 0
	call	memset
	addi	a0, sp, 512
	li	a2, 32
	li	a1, 0
	call	memset
	lbu	a6, 24(s1)
	lbu	t2, 25(s1)
	lbu	t4, 26(s1)
	lbu	t5, 27(s1)
	lbu	t0, 28(s1)
	lbu	s3, 29(s1)
	lbu	a7, 30(s1)
	lbu	t1, 31(s1)
	lbu	t3, 16(s1)
	lbu	t6, 17(s1)
	lbu	s5, 18(s1)
	lbu	s8, 19(s1)
	lbu	s6, 20(s1)
	lbu	s9, 21(s1)
	lbu	s4, 22(s1)
	lbu	s7, 23(s1)
	ld	a2, 512(sp)
	ld	a3, 520(sp)
	ld	a4, 528(sp)
	ld	a5, 536(sp)
	slli	t2, t2, 8
	slli	t4, t4, 16
	slli	t5, t5, 24
	slli	s3, s3, 8
	sd	a2, 576(sp)
	sd	a3, 584(sp)
	sd	a4, 592(sp)
	sd	a5, 600(sp)
	or	a6, t2, a6
	or	t2, t5, t4
	or	t0, s3, t0
	lbu	t5, 8(s1)
	lbu	s0, 9(s1)
	lbu	a0, 10(s1)
	lbu	a1, 11(s1)
	slli	a7, a7, 16
	slli	t1, t1, 24
	slli	t6, t6, 8
	slli	s5, s5, 16
	slli	s8, s8, 24
	slli	s9, s9, 8
	or	a7, t1, a7
	or	t1, t6, t3
	or	t4, s8, s5
	or	t3, s9, s6
	lbu	a3, 12(s1)
	lbu	a2, 13(s1)
	lbu	a4, 14(s1)
	lbu	a5, 15(s1)
	slli	s4, s4, 16
	slli	s7, s7, 24
	slli	s0, s0, 8
	slli	a0, a0, 16
	slli	a1, a1, 24
	slli	a2, a2, 8
	or	t6, s7, s4
	or	t5, s0, t5
	or	s3, a1, a0
	or	s4, a2, a3
	lbu	a1, 0(s1)
	lbu	a3, 1(s1)
	lbu	s0, 2(s1)
	lbu	a0, 3(s1)
	slli	a4, a4, 16
	slli	a5, a5, 24
	slli	a3, a3, 8
	slli	s0, s0, 16
	slli	a0, a0, 24
	or	s6, a5, a4
	or	s5, a3, a1
	or	a0, a0, s0
	lbu	a3, 5(s1)
	lbu	a5, 4(s1)
	lbu	s0, 6(s1)
	lbu	s1, 7(s1)
	slli	a3, a3, 8
	or	a3, a3, a5
	slli	s0, s0, 16
	slli	s1, s1, 24
	or	s0, s0, s1
	or	a5, t2, a6
	or	s1, a7, t0
	or	a2, t4, t1
	or	a1, t6, t3
	or	a6, s3, t5
	or	a4, s6, s4
	or	a7, a0, s5
	or	a3, a3, s0
	slli	s1, s1, 32
	or	a5, a5, s1
	slli	a1, a1, 32
	or	a1, a1, a2
	addi	a0, sp, 544
	slli	a4, a4, 32
	slli	a3, a3, 32
	or	a2, a4, a6
	or	a3, a3, a7
	sd	a3, 480(sp)
	sd	a2, 488(sp)
	sd	a1, 496(sp)
	sd	a5, 504(sp)
	sd	a3, 544(sp)
	sd	a2, 552(sp)
	sd	a1, 560(sp)
	sd	a5, 568(sp)
	addi	a1, sp, 608
.Lnoise_BB37_1:
	lbu	a2, 0(a0)
	xori	a2, a2, 54
	sb	a2, 0(a0)
	addi	a0, a0, 1
	bne	a0, a1, .Lnoise_BB37_1
	lui	a6, 767611
	lui	a7, 677119
	lui	t0, 634967
	lui	t1, 434334
	lui	t2, 376333
	lui	t3, 332005
	lui	t4, 247535
	lui	t5, 129086
	ld	s0, 576(sp)
	ld	a1, 584(sp)
	ld	a2, 592(sp)
	ld	a3, 600(sp)
	ld	a4, 544(sp)
	ld	a5, 552(sp)
	ld	s1, 560(sp)
	ld	a0, 568(sp)
.Lnoise_pcrel_hi36:
	auipc	t6, %pcrel_hi(.Lnoise_CPI37_0)
.Lnoise_pcrel_hi37:
	auipc	s9, %pcrel_hi(.Lnoise_CPI37_1)
	sd	s0, 136(sp)
	sd	a1, 144(sp)
	sd	a2, 152(sp)
	sd	a3, 160(sp)
.Lnoise_pcrel_hi38:
	auipc	a1, %pcrel_hi(.Lnoise_CPI37_2)
	sd	a4, 104(sp)
	sd	a5, 112(sp)
	sd	s1, 120(sp)
	sd	a0, 128(sp)
.Lnoise_pcrel_hi39:
	auipc	a0, %pcrel_hi(.Lnoise_CPI37_3)
	addi	s6, a6, -379
	addi	s5, a7, 1338
	addi	s3, t0, -1908
	addi	s0, t1, 1639
	addi	s4, t2, -743
	addi	s7, t3, 639
	addi	s1, t4, 882
	addi	s8, t5, -1621
	ld	a2, %pcrel_lo(.Lnoise_pcrel_hi36)(t6)
	ld	a3, %pcrel_lo(.Lnoise_pcrel_hi37)(s9)
	ld	a1, %pcrel_lo(.Lnoise_pcrel_hi38)(a1)
	ld	a0, %pcrel_lo(.Lnoise_pcrel_hi39)(a0)
	sd	a2, 544(sp)
	sd	a3, 552(sp)
	sd	a1, 560(sp)
	sd	a0, 568(sp)
	addi	a0, sp, 576
	li	a2, 72
	li	a1, 0
	call	memset
	addi	a0, sp, 544
	addi	a1, sp, 104
	li	a2, 64
	call	noise_sha2_block256_Core256_update
	addi	a0, sp, 168
	addi	a1, sp, 544
	li	a2, 104
	call	memcpy
	addi	a0, sp, 480
	addi	a1, sp, 544
.Lnoise_BB37_3:
	lbu	a2, 0(a0)
	xori	a2, a2, 92
	sb	a2, 0(a0)
	addi	a0, a0, 1
	bne	a0, a1, .Lnoise_BB37_3
	sw	s0, 544(sp)
	sw	s6, 548(sp)
	sw	s1, 552(sp)
	sw	s5, 556(sp)
	sw	s7, 560(sp)
	sw	s3, 564(sp)
	sw	s8, 568(sp)
	sw	s4, 572(sp)
	addi	a0, sp, 576
	li	a2, 72
	li	a1, 0
	call	memset
	addi	a0, sp, 544
	addi	a1, sp, 480
	li	a2, 64
	call	noise_sha2_block256_Core256_update
	mv	a0, sp
	addi	a1, sp, 544
	li	a2, 104
	call	memcpy
	addi	a0, sp, 272
	addi	a1, sp, 168
	li	a2, 104
	call	memcpy
	addi	a0, sp, 376
	mv	a1, sp
	li	a2, 104
	call	memcpy
	addi	a1, sp, 272
	li	a2, 208
	mv	a0, s2
	call	memcpy
	ld	ra, 728(sp)
	ld	s0, 720(sp)
	ld	s1, 712(sp)
	ld	s2, 704(sp)
	ld	s3, 696(sp)
	ld	s4, 688(sp)
	ld	s5, 680(sp)
	ld	s6, 672(sp)
	ld	s7, 664(sp)
	ld	s8, 656(sp)
	ld	s9, 648(sp)
	.cfi_restore ra
	.cfi_restore s0
	.cfi_restore s1
	.cfi_restore s2
	.cfi_restore s3
	.cfi_restore s4
	.cfi_restore s5
	.cfi_restore s6
	.cfi_restore s7
	.cfi_restore s8
	.cfi_restore s9
	addi	sp, sp, 736
	.cfi_def_cfa_offset 0
	ret
.Lnoise_func_end37:
	.size	noise_noise_kdf_keyed_Hmac_new, .Lnoise_func_end37-noise_noise_kdf_keyed_Hmac_new
	.cfi_endproc

	.section	".text.noise_kdf::keyed::Hmac::code","ax",@progbits
	.p2align	1
	.type	noise_noise_kdf_keyed_Hmac_code,@function
noise_noise_kdf_keyed_Hmac_code:
	.cfi_startproc
	addi	sp, sp, -624
	.cfi_def_cfa_offset 624
	sd	ra, 616(sp)
	sd	s0, 608(sp)
	sd	s1, 600(sp)
	sd	s2, 592(sp)
	sd	s3, 584(sp)
	sd	s4, 576(sp)
	sd	s5, 568(sp)
	sd	s6, 560(sp)
	sd	s7, 552(sp)
	sd	s8, 544(sp)
	sd	s9, 536(sp)
	sd	s10, 528(sp)
	sd	s11, 520(sp)
	.cfi_offset ra, -8
	.cfi_offset s0, -16
	.cfi_offset s1, -24
	.cfi_offset s2, -32
	.cfi_offset s3, -40
	.cfi_offset s4, -48
	.cfi_offset s5, -56
	.cfi_offset s6, -64
	.cfi_offset s7, -72
	.cfi_offset s8, -80
	.cfi_offset s9, -88
	.cfi_offset s10, -96
	.cfi_offset s11, -104
	mv	s11, a3
	mv	s3, a2
	mv	s10, a1
	mv	s2, a0
	lbu	t2, 24(a1)
	lbu	a1, 25(a1)
	lbu	a2, 26(s10)
	lbu	a3, 27(s10)
	lbu	a6, 28(s10)
	lbu	a7, 29(s10)
	lbu	t0, 30(s10)
	lbu	t1, 31(s10)
	lbu	t3, 16(s10)
	lbu	s6, 17(s10)
	lbu	a0, 18(s10)
	lbu	a4, 19(s10)
	lbu	t4, 20(s10)
	lbu	t5, 21(s10)
	lbu	t6, 22(s10)
	lbu	s4, 23(s10)
	slli	a1, a1, 8
	slli	a2, a2, 16
	slli	a3, a3, 24
	or	t2, a1, t2
	or	s5, a3, a2
	lbu	s7, 8(s10)
	lbu	a2, 9(s10)
	lbu	a3, 10(s10)
	lbu	a5, 11(s10)
	slli	a7, a7, 8
	slli	t0, t0, 16
	slli	t1, t1, 24
	slli	s6, s6, 8
	slli	a1, a0, 16
	slli	a0, a4, 24
	or	a6, a7, a6
	or	a7, t1, t0
	or	t0, s6, t3
	or	t1, a0, a1
	lbu	t3, 12(s10)
	lbu	s6, 13(s10)
	lbu	a0, 14(s10)
	lbu	a1, 15(s10)
	slli	t5, t5, 8
	slli	t6, t6, 16
	slli	s4, s4, 24
	slli	a2, a2, 8
	slli	a3, a3, 16
	slli	a5, a5, 24
	or	t4, t5, t4
	or	t5, s4, t6
	or	t6, a2, s7
	or	s4, a5, a3
	lbu	a5, 0(s10)
	lbu	a2, 1(s10)
	lbu	a3, 2(s10)
	lbu	a4, 3(s10)
	slli	s6, s6, 8
	slli	a0, a0, 16
	slli	a1, a1, 24
	slli	a2, a2, 8
	slli	a3, a3, 16
	slli	a4, a4, 24
	or	t3, s6, t3
	or	s6, a1, a0
	or	s7, a2, a5
	or	s8, a4, a3
	lbu	a1, 5(s10)
	lbu	a4, 4(s10)
	lbu	a5, 6(s10)
	lbu	a0, 7(s10)
	slli	a1, a1, 8
	or	s9, a1, a4
	slli	a5, a5, 16
	slli	a0, a0, 24
	or	a0, a0, a5
	or	a4, s5, t2
	or	a5, a7, a6
	or	a2, t1, t0
	or	a3, t5, t4
	or	a6, s4, t6
	or	a1, s6, t3
	or	a7, s8, s7
	or	a0, a0, s9
	slli	a5, a5, 32
	or	a4, a4, a5
	slli	a3, a3, 32
	or	a2, a2, a3
	slli	a1, a1, 32
	or	a3, a1, a6
	slli	a0, a0, 32
	or	a0, a0, a7
	addi	a1, s10, 32
	sd	a0, 320(sp)
	sd	a3, 328(sp)
	sd	a2, 336(sp)
	sd	a4, 344(sp)
	addi	a0, sp, 352
	li	a2, 64
	call	memcpy
	ld	s5, 96(s10)
	addi	s4, sp, 423
	addi	a1, sp, 320
	li	a2, 96
	mv	a0, s4
	call	memcpy
	addi	a0, sp, 16
	li	a2, 96
	mv	a1, s4
	call	memcpy
	addi	a0, sp, 216
	addi	a1, sp, 16
	li	a2, 96
	call	memcpy
	sd	s5, 312(sp)
	addi	s3, s3, 8
.Lnoise_BB38_1:
	lbu	a0, -8(s3)
	lbu	a1, -7(s3)
	lbu	a2, -6(s3)
	lbu	a3, -5(s3)
	lbu	a4, -4(s3)
	lbu	a5, -3(s3)
	lbu	s1, -2(s3)
	lbu	s0, -1(s3)
	slli	a1, a1, 8
	slli	a2, a2, 16
	slli	a3, a3, 24
	or	a6, a1, a0
	or	a7, a3, a2
	lbu	a1, 0(s3)
	lbu	a3, 1(s3)
	lbu	a0, 2(s3)
	lbu	a2, 3(s3)
	slli	a5, a5, 8
	slli	s1, s1, 16
	slli	s0, s0, 24
	slli	a3, a3, 8
	slli	a0, a0, 16
	slli	a2, a2, 24
	or	a4, a4, a5
	or	s0, s0, s1
	or	a1, a1, a3
	or	a0, a0, a2
	lbu	a2, 5(s3)
	lbu	a3, 4(s3)
	lbu	a5, 6(s3)
	lbu	s1, 7(s3)
	slli	a2, a2, 8
	or	a2, a2, a3
	slli	a5, a5, 16
	slli	s1, s1, 24
	or	a5, a5, s1
	or	a3, a7, a6
	or	a4, a4, s0
	or	a0, a0, a1
	or	a2, a2, a5
	slli	a1, a4, 32
	slli	a2, a2, 32
	or	a1, a1, a3
	or	a2, a2, a0
	addi	a0, sp, 216
	call	noise_sha2_block256_Core256_update
	addi	s11, s11, -1
	addi	s3, s3, 16
	bnez	s11, .Lnoise_BB38_1
	lbu	t4, 128(s10)
	lbu	a1, 129(s10)
	lbu	a2, 130(s10)
	lbu	a3, 131(s10)
	lbu	a6, 132(s10)
	lbu	a7, 133(s10)
	lbu	t0, 134(s10)
	lbu	t1, 135(s10)
	lbu	t5, 120(s10)
	lbu	a5, 121(s10)
	lbu	s1, 122(s10)
	lbu	s0, 123(s10)
	lbu	t2, 124(s10)
	lbu	t3, 125(s10)
	lbu	s3, 126(s10)
	lbu	s4, 127(s10)
	slli	a1, a1, 8
	slli	a2, a2, 16
	slli	a3, a3, 24
	or	t4, a1, t4
	or	t6, a3, a2
	lbu	a1, 112(s10)
	lbu	a2, 113(s10)
	lbu	a3, 114(s10)
	lbu	a0, 115(s10)
	slli	a7, a7, 8
	slli	t0, t0, 16
	slli	t1, t1, 24
	slli	a4, a5, 8
	slli	s1, s1, 16
	slli	a5, s0, 24
	or	a6, a7, a6
	or	t0, t1, t0
	or	a7, a4, t5
	or	t1, a5, s1
	lbu	a4, 116(s10)
	lbu	s1, 117(s10)
	lbu	s0, 118(s10)
	lbu	a5, 119(s10)
	slli	t3, t3, 8
	slli	s3, s3, 16
	slli	s4, s4, 24
	slli	a2, a2, 8
	slli	a3, a3, 16
	slli	a0, a0, 24
	or	t2, t3, t2
	or	t3, s4, s3
	or	t5, a2, a1
	or	s3, a0, a3
	lbu	a2, 104(s10)
	lbu	a3, 105(s10)
	lbu	a1, 106(s10)
	lbu	a0, 107(s10)
	slli	s1, s1, 8
	slli	s0, s0, 16
	slli	a5, a5, 24
	slli	a3, a3, 8
	slli	a1, a1, 16
	slli	a0, a0, 24
	or	s4, s1, a4
	or	s6, a5, s0
	or	s5, a3, a2
	or	s7, a0, a1
	lbu	a1, 109(s10)
	lbu	a3, 108(s10)
	lbu	s0, 110(s10)
	lbu	s1, 111(s10)
	slli	a1, a1, 8
	or	s8, a1, a3
	slli	s0, s0, 16
	slli	s1, s1, 24
	or	s0, s0, s1
	or	a3, t6, t4
	or	s1, t0, a6
	or	a4, t1, a7
	or	a2, t3, t2
	or	a5, s3, t5
	or	a0, s6, s4
	or	a1, s7, s5
	or	s0, s0, s8
	slli	s1, s1, 32
	or	a3, a3, s1
	slli	a2, a2, 32
	or	a2, a2, a4
	slli	a0, a0, 32
	or	a0, a0, a5
	slli	s0, s0, 32
	or	s0, s0, a1
	addi	a1, s10, 136
	sd	s0, 320(sp)
	sd	a0, 328(sp)
	sd	a2, 336(sp)
	sd	a3, 344(sp)
	addi	a0, sp, 352
	li	a2, 64
	call	memcpy
	ld	s1, 200(s10)
	addi	s0, sp, 423
	addi	a1, sp, 320
	li	a2, 96
	mv	a0, s0
	call	memcpy
	addi	a0, sp, 16
	li	a2, 96
	mv	a1, s0
	call	memcpy
	addi	a0, sp, 112
	addi	a1, sp, 16
	li	a2, 96
	call	memcpy
	ld	s0, 312(sp)
	sd	s1, 208(sp)
	addi	a0, sp, 416
	addi	a1, sp, 216
	li	a2, 96
	call	memcpy
	sd	s0, 512(sp)
	li	a0, 55
	sub	a0, a0, s0
	andi	a2, a0, 63
	addi	a2, a2, 1
.Lnoise_pcrel_hi40:
	auipc	s5, %pcrel_hi(.Lnoise_static.100)
	addi	a1, s5, %pcrel_lo(.Lnoise_pcrel_hi40)
	sd	a1, 8(sp)
	addi	a0, sp, 416
	call	noise_sha2_block256_Core256_update
	slli	a0, s0, 3
	slli	a1, s0, 59
	slli	a2, s0, 43
	li	s9, 255
	slli	a3, s0, 27
	slli	a4, s0, 11
	srli	a5, s0, 5
	srli	s1, s0, 21
	slli	s8, s9, 48
	slli	s6, s9, 40
	and	a2, a2, s8
	or	a1, a1, a2
	slli	s7, s9, 32
	and	a2, a3, s6
	and	a3, a4, s7
	or	a2, a2, a3
	lui	a3, 4080
	srli	s0, s0, 37
	slli	s9, s9, 24
	and	a3, a3, s1
	and	a4, a5, s9
	or	a3, a3, a4
	lui	a4, 16
	srli	a0, a0, 56
	addi	s1, a4, -256
	and	s0, s0, s1
	or	a1, a1, a2
	or	a3, a3, s0
	or	a1, a1, a3
	or	a0, a0, a1
	sd	a0, 320(sp)
	addi	a0, sp, 416
	addi	a1, sp, 320
	li	a2, 8
	call	noise_sha2_block256_Core256_update
	lw	a4, 416(sp)
	lw	a5, 420(sp)
	lw	s0, 424(sp)
	lw	a0, 428(sp)
	lw	a2, 432(sp)
	lw	a3, 436(sp)
	lw	t5, 440(sp)
	lw	t0, 444(sp)
	srli	a6, a4, 8
	srliw	a7, a4, 24
	and	t1, a4, s1
	slli	t3, a4, 24
	srli	t2, a5, 8
	srliw	a4, a5, 24
	and	s3, a5, s1
	slli	s11, a5, 24
	srli	a1, s0, 8
	srliw	t6, s0, 24
	and	s10, s0, s1
	slli	t4, s0, 24
	and	a5, a6, s1
	or	s5, a5, a7
	srli	ra, a0, 8
	slli	t1, t1, 8
	or	s4, t3, t1
	srliw	a6, a0, 24
	and	s0, t2, s1
	or	t1, s0, a4
	and	a7, a0, s1
	slli	a0, a0, 24
	slli	s3, s3, 8
	or	t2, s11, s3
	srli	s3, a2, 8
	and	a5, a1, s1
	or	t3, a5, t6
	srliw	a5, a2, 24
	slli	s10, s10, 8
	or	t4, t4, s10
	and	a4, a2, s1
	slli	a2, a2, 24
	and	s0, ra, s1
	or	a6, s0, a6
	srli	s0, a3, 8
	slli	a7, a7, 8
	or	a7, a0, a7
	srliw	a0, a3, 24
	and	a1, s3, s1
	or	t6, a1, a5
	and	a5, a3, s1
	slli	a3, a3, 24
	slli	a4, a4, 8
	or	s3, a2, a4
	srli	a4, t5, 8
	and	s0, s0, s1
	or	s10, s0, a0
	srliw	s0, t5, 24
	slli	a5, a5, 8
	or	s11, a3, a5
	and	a5, t5, s1
	slli	t5, t5, 24
	and	a4, a4, s1
	or	ra, a4, s0
	srli	s0, t0, 8
	slli	a5, a5, 8
	or	t5, t5, a5
	srliw	a1, t0, 24
	and	s0, s0, s1
	or	a1, a1, s0
	and	s0, t0, s1
	slli	t0, t0, 24
	slli	s0, s0, 8
	or	s0, t0, s0
	or	a2, s4, s5
	or	a0, t2, t1
	or	a3, t4, t3
	or	a4, a7, a6
	or	a5, s3, t6
	or	a6, s11, s10
	or	a7, t5, ra
	or	a1, a1, s0
	sw	a2, 416(sp)
	sw	a0, 420(sp)
	sw	a3, 424(sp)
	sw	a4, 428(sp)
	sw	a5, 432(sp)
	sw	a6, 436(sp)
	sw	a7, 440(sp)
	sw	a1, 444(sp)
	addi	a0, sp, 112
	addi	a1, sp, 416
	li	a2, 32
	call	noise_sha2_block256_Core256_update
	ld	s0, 208(sp)
	addi	a0, sp, 416
	addi	a1, sp, 112
	li	a2, 96
	call	memcpy
	sd	s0, 512(sp)
	li	a0, 55
	sub	a0, a0, s0
	andi	a2, a0, 63
	addi	a2, a2, 1
	addi	a0, sp, 416
	ld	a1, 8(sp)
	call	noise_sha2_block256_Core256_update
	slli	a0, s0, 3
	slli	a6, s0, 59
	slli	a2, s0, 43
	and	a7, a2, s8
	slli	a3, s0, 27
	and	a3, a3, s6
	slli	a4, s0, 11
	and	a4, a4, s7
	srli	a5, s0, 5
	and	a5, a5, s9
	srli	a2, s0, 21
	srli	s0, s0, 37
	srli	a0, a0, 56
	lui	a1, 4080
	and	a1, a1, a2
	and	s0, s0, s1
	or	a2, a7, a6
	or	a3, a3, a4
	or	a1, a1, a5
	or	a2, a2, a3
	or	a1, a1, s0
	or	a1, a1, a2
	or	a0, a0, a1
	sd	a0, 320(sp)
	addi	a0, sp, 416
	addi	a1, sp, 320
	li	a2, 8
	call	noise_sha2_block256_Core256_update
	lw	a4, 416(sp)
	lw	s1, 420(sp)
	lw	s0, 424(sp)
	lw	a5, 428(sp)
	lw	a3, 432(sp)
	lw	a2, 436(sp)
	lw	a1, 440(sp)
	lw	a0, 444(sp)
	srli	t4, a4, 24
	srli	t5, s1, 24
	srli	t3, s0, 24
	srli	t2, a5, 24
	srli	t1, a3, 24
	srli	t0, a2, 24
	srli	a7, a1, 24
	srli	a6, a0, 24
	srli	t6, a4, 8
	srli	s3, a4, 16
	srli	s4, s1, 8
	srli	s5, s1, 16
	srli	s6, s0, 8
	srli	s7, s0, 16
	srli	s8, a5, 8
	srli	s9, a5, 16
	srli	s10, a3, 8
	srli	s11, a3, 16
	srli	ra, a2, 8
	sb	t4, 0(s2)
	srli	t4, a2, 16
	sb	s3, 1(s2)
	srli	s3, a1, 8
	sb	t6, 2(s2)
	sb	a4, 3(s2)
	srli	a4, a1, 16
	sb	t5, 4(s2)
	sb	s5, 5(s2)
	sb	s4, 6(s2)
	sb	s1, 7(s2)
	srli	s1, a0, 8
	sb	t3, 8(s2)
	sb	s7, 9(s2)
	sb	s6, 10(s2)
	sb	s0, 11(s2)
	srli	s0, a0, 16
	sb	t2, 12(s2)
	sb	s9, 13(s2)
	sb	s8, 14(s2)
	sb	a5, 15(s2)
	sb	t1, 16(s2)
	sb	s11, 17(s2)
	sb	s10, 18(s2)
	sb	a3, 19(s2)
	sb	t0, 20(s2)
	sb	t4, 21(s2)
	sb	ra, 22(s2)
	sb	a2, 23(s2)
	sb	a7, 24(s2)
	sb	a4, 25(s2)
	sb	s3, 26(s2)
	sb	a1, 27(s2)
	sb	a6, 28(s2)
	sb	s0, 29(s2)
	sb	s1, 30(s2)
	sb	a0, 31(s2)
	ld	ra, 616(sp)
	ld	s0, 608(sp)
	ld	s1, 600(sp)
	ld	s2, 592(sp)
	ld	s3, 584(sp)
	ld	s4, 576(sp)
	ld	s5, 568(sp)
	ld	s6, 560(sp)
	ld	s7, 552(sp)
	ld	s8, 544(sp)
	ld	s9, 536(sp)
	ld	s10, 528(sp)
	ld	s11, 520(sp)
	.cfi_restore ra
	.cfi_restore s0
	.cfi_restore s1
	.cfi_restore s2
	.cfi_restore s3
	.cfi_restore s4
	.cfi_restore s5
	.cfi_restore s6
	.cfi_restore s7
	.cfi_restore s8
	.cfi_restore s9
	.cfi_restore s10
	.cfi_restore s11
	addi	sp, sp, 624
	.cfi_def_cfa_offset 0
	ret
.Lnoise_func_end38:
	.size	noise_noise_kdf_keyed_Hmac_code, .Lnoise_func_end38-noise_noise_kdf_keyed_Hmac_code
	.cfi_endproc

	.section	".text.noise_c::supplied_keys::result_for","ax",@progbits
	.p2align	1
	.type	noise_noise_c_supplied_keys_result_for,@function
noise_noise_c_supplied_keys_result_for:
	.cfi_startproc
	addi	sp, sp, -64
	.cfi_def_cfa_offset 64
	sd	ra, 56(sp)
	sd	s0, 48(sp)
	.cfi_offset ra, -8
	.cfi_offset s0, -16
	.cfi_remember_state
	mv	s0, a0
	sb	zero, 40(sp)
	sd	zero, 8(sp)
	sd	zero, 16(sp)
	sd	zero, 24(sp)
	sd	zero, 32(sp)
	beqz	a2, .Lnoise_BB39_37
	lbu	a0, 0(a1)
	snez	a0, a0
	zext.b	a5, a3
	bne	a5, a0, .Lnoise_BB39_35
	lbu	a0, 1(a1)
	lbu	a5, 0(a4)
	bne	a0, a5, .Lnoise_BB39_35
	lbu	a0, 2(a1)
	lbu	a5, 1(a4)
	bne	a0, a5, .Lnoise_BB39_35
	lbu	a0, 3(a1)
	lbu	a5, 2(a4)
	bne	a0, a5, .Lnoise_BB39_35
	lbu	a0, 4(a1)
	lbu	a5, 3(a4)
	bne	a0, a5, .Lnoise_BB39_35
	lbu	a0, 5(a1)
	lbu	a5, 4(a4)
	bne	a0, a5, .Lnoise_BB39_35
	lbu	a0, 6(a1)
	lbu	a5, 5(a4)
	bne	a0, a5, .Lnoise_BB39_35
	lbu	a0, 7(a1)
	lbu	a5, 6(a4)
	bne	a0, a5, .Lnoise_BB39_35
	lbu	a0, 8(a1)
	lbu	a5, 7(a4)
	bne	a0, a5, .Lnoise_BB39_35
	lbu	a0, 9(a1)
	lbu	a5, 8(a4)
	bne	a0, a5, .Lnoise_BB39_35
	lbu	a0, 10(a1)
	lbu	a5, 9(a4)
	bne	a0, a5, .Lnoise_BB39_35
	lbu	a0, 11(a1)
	lbu	a5, 10(a4)
	bne	a0, a5, .Lnoise_BB39_35
	lbu	a0, 12(a1)
	lbu	a5, 11(a4)
	bne	a0, a5, .Lnoise_BB39_35
	lbu	a0, 13(a1)
	lbu	a5, 12(a4)
	bne	a0, a5, .Lnoise_BB39_35
	lbu	a0, 14(a1)
	lbu	a5, 13(a4)
	bne	a0, a5, .Lnoise_BB39_35
	lbu	a0, 15(a1)
	lbu	a5, 14(a4)
	bne	a0, a5, .Lnoise_BB39_35
	lbu	a0, 16(a1)
	lbu	a5, 15(a4)
	bne	a0, a5, .Lnoise_BB39_35
	lbu	a0, 17(a1)
	lbu	a5, 16(a4)
	bne	a0, a5, .Lnoise_BB39_35
	lbu	a0, 18(a1)
	lbu	a5, 17(a4)
	bne	a0, a5, .Lnoise_BB39_35
	lbu	a0, 19(a1)
	lbu	a5, 18(a4)
	bne	a0, a5, .Lnoise_BB39_35
	lbu	a0, 20(a1)
	lbu	a5, 19(a4)
	bne	a0, a5, .Lnoise_BB39_35
	lbu	a0, 21(a1)
	lbu	a5, 20(a4)
	bne	a0, a5, .Lnoise_BB39_35
	lbu	a0, 22(a1)
	lbu	a5, 21(a4)
	bne	a0, a5, .Lnoise_BB39_35
	lbu	a0, 23(a1)
	lbu	a5, 22(a4)
	bne	a0, a5, .Lnoise_BB39_35
	lbu	a0, 24(a1)
	lbu	a5, 23(a4)
	bne	a0, a5, .Lnoise_BB39_35
	lbu	a0, 25(a1)
	lbu	a5, 24(a4)
	bne	a0, a5, .Lnoise_BB39_35
	lbu	a0, 26(a1)
	lbu	a5, 25(a4)
	bne	a0, a5, .Lnoise_BB39_35
	lbu	a0, 27(a1)
	lbu	a5, 26(a4)
	bne	a0, a5, .Lnoise_BB39_35
	lbu	a0, 28(a1)
	lbu	a5, 27(a4)
	bne	a0, a5, .Lnoise_BB39_35
	lbu	a0, 29(a1)
	lbu	a5, 28(a4)
	bne	a0, a5, .Lnoise_BB39_35
	lbu	a0, 30(a1)
	lbu	a5, 29(a4)
	bne	a0, a5, .Lnoise_BB39_35
	lbu	a0, 31(a1)
	lbu	a5, 30(a4)
	bne	a0, a5, .Lnoise_BB39_35
	lbu	a0, 32(a1)
	lbu	a5, 31(a4)
	bne	a0, a5, .Lnoise_BB39_35
	addi	a1, a1, 33
	addi	a0, sp, 9
	li	a2, 32
	call	memcpy
	li	a0, 1
	j	.Lnoise_BB39_36
.Lnoise_BB39_35:
	addi	a1, a1, 65
	addi	a2, a2, -1
	addi	a0, sp, 8
	call	noise_noise_c_supplied_keys_result_for
	lbu	a0, 8(sp)
.Lnoise_BB39_36:
	addi	a1, sp, 9
	sb	a0, 0(s0)
	addi	a0, s0, 1
	li	a2, 32
	call	memcpy
	ld	ra, 56(sp)
	ld	s0, 48(sp)
	.cfi_restore ra
	.cfi_restore s0
	addi	sp, sp, 64
	.cfi_def_cfa_offset 0
	ret
.Lnoise_BB39_37:
	.cfi_restore_state
	li	a2, 33
	mv	a0, s0
	li	a1, 0
	ld	ra, 56(sp)
	ld	s0, 48(sp)
	.cfi_restore ra
	.cfi_restore s0
	addi	sp, sp, 64
	.cfi_def_cfa_offset 0
	tail	memset
.Lnoise_func_end39:
	.size	noise_noise_c_supplied_keys_result_for, .Lnoise_func_end39-noise_noise_c_supplied_keys_result_for
	.cfi_endproc

	.section	".text.noise_handshake::setup::mix_premessage","ax",@progbits
	.p2align	1
	.type	noise_noise_handshake_setup_mix_premessage,@function
noise_noise_handshake_setup_mix_premessage:
	.cfi_startproc
	addi	sp, sp, -192
	.cfi_def_cfa_offset 192
	sd	ra, 184(sp)
	sd	s0, 176(sp)
	sd	s1, 168(sp)
	sd	s2, 160(sp)
	sd	s3, 152(sp)
	sd	s4, 144(sp)
	sd	s5, 136(sp)
	sd	s6, 128(sp)
	sd	s7, 120(sp)
	sd	s8, 112(sp)
	sd	s9, 104(sp)
	.cfi_offset ra, -8
	.cfi_offset s0, -16
	.cfi_offset s1, -24
	.cfi_offset s2, -32
	.cfi_offset s3, -40
	.cfi_offset s4, -48
	.cfi_offset s5, -56
	.cfi_offset s6, -64
	.cfi_offset s7, -72
	.cfi_offset s8, -80
	.cfi_offset s9, -88
	.cfi_remember_state
	sd	zero, 40(sp)
	sd	zero, 48(sp)
	sd	zero, 56(sp)
	sd	zero, 64(sp)
	beqz	a4, .Lnoise_BB40_9
	lbu	a5, 0(a3)
	addi	s1, a5, -2
	li	s0, 5
	bltu	s1, s0, .Lnoise_BB40_8
	mv	s2, a3
	mv	s3, a4
	bnez	a5, .Lnoise_BB40_5
	lbu	a3, 0(a2)
	li	a4, 1
	bne	a3, a4, .Lnoise_BB40_10
	lbu	a6, 25(a2)
	lbu	t4, 26(a2)
	lbu	a5, 27(a2)
	lbu	s1, 28(a2)
	lbu	a7, 29(a2)
	lbu	t0, 30(a2)
	lbu	t1, 31(a2)
	lbu	t2, 32(a2)
	lbu	t3, 17(a2)
	lbu	s6, 18(a2)
	lbu	s0, 19(a2)
	lbu	a4, 20(a2)
	lbu	t5, 21(a2)
	lbu	t6, 22(a2)
	lbu	s4, 23(a2)
	lbu	s5, 24(a2)
	slli	t4, t4, 8
	slli	a5, a5, 16
	slli	s1, s1, 24
	or	a6, t4, a6
	or	t4, s1, a5
	lbu	s7, 9(a2)
	lbu	s1, 10(a2)
	lbu	a3, 11(a2)
	lbu	a5, 12(a2)
	slli	t0, t0, 8
	slli	t1, t1, 16
	slli	t2, t2, 24
	slli	s6, s6, 8
	slli	s0, s0, 16
	slli	a4, a4, 24
	or	a7, t0, a7
	or	t0, t2, t1
	or	t1, s6, t3
	or	t2, a4, s0
	lbu	t3, 13(a2)
	lbu	s6, 14(a2)
	lbu	s8, 15(a2)
	lbu	a4, 16(a2)
	slli	t6, t6, 8
	slli	s4, s4, 16
	slli	s5, s5, 24
	slli	s1, s1, 8
	slli	a3, a3, 16
	slli	a5, a5, 24
	or	t5, t6, t5
	or	t6, s5, s4
	or	s4, s1, s7
	or	s5, a5, a3
	lbu	a5, 1(a2)
	lbu	s1, 2(a2)
	lbu	a3, 3(a2)
	lbu	s0, 4(a2)
	slli	s6, s6, 8
	slli	s8, s8, 16
	slli	a4, a4, 24
	slli	s1, s1, 8
	slli	a3, a3, 16
	slli	s0, s0, 24
	or	t3, s6, t3
	or	s6, a4, s8
	or	s7, s1, a5
	or	s8, s0, a3
	lbu	s0, 6(a2)
	lbu	s1, 5(a2)
	lbu	a4, 7(a2)
	lbu	a5, 8(a2)
	slli	s0, s0, 8
	or	s9, s0, s1
	slli	a4, a4, 16
	slli	a5, a5, 24
	or	a4, a4, a5
	or	a5, t4, a6
	or	s1, t0, a7
	or	a7, t2, t1
	or	s0, t6, t5
	or	a6, s5, s4
	or	a3, s6, t3
	or	t0, s8, s7
	or	a4, a4, s9
	slli	s1, s1, 32
	or	a5, a5, s1
	slli	s0, s0, 32
	or	s1, s0, a7
	slli	a3, a3, 32
	or	a3, a3, a6
	slli	a4, a4, 32
	or	a4, a4, t0
	sd	a4, 40(sp)
	sd	a3, 48(sp)
	sd	s1, 56(sp)
	sd	a5, 64(sp)
	mv	s4, a2
	addi	a2, sp, 40
	mv	s0, a0
	mv	s1, a1
	call	noise_noise_handshake_tokens_mix_ephemeral
	mv	a0, s0
	mv	a1, s1
	mv	a2, s4
	j	.Lnoise_BB40_7
.Lnoise_BB40_5:
	lbu	a3, 33(a2)
	li	a4, 1
	bne	a3, a4, .Lnoise_BB40_10
	lbu	a6, 58(a2)
	lbu	t2, 59(a2)
	lbu	a5, 60(a2)
	lbu	s1, 61(a2)
	lbu	a7, 62(a2)
	lbu	t0, 63(a2)
	lbu	t1, 64(a2)
	lbu	t3, 65(a2)
	lbu	t4, 50(a2)
	lbu	s6, 51(a2)
	lbu	s0, 52(a2)
	lbu	a4, 53(a2)
	lbu	t5, 54(a2)
	lbu	t6, 55(a2)
	lbu	s4, 56(a2)
	lbu	s5, 57(a2)
	slli	t2, t2, 8
	slli	a5, a5, 16
	slli	s1, s1, 24
	or	a6, t2, a6
	or	t2, s1, a5
	lbu	s7, 42(a2)
	lbu	s1, 43(a2)
	lbu	a3, 44(a2)
	lbu	a5, 45(a2)
	slli	t0, t0, 8
	slli	t1, t1, 16
	slli	t3, t3, 24
	slli	s6, s6, 8
	slli	s0, s0, 16
	slli	a4, a4, 24
	or	a7, t0, a7
	or	t0, t3, t1
	or	t1, s6, t4
	or	t3, a4, s0
	lbu	t4, 46(a2)
	lbu	s6, 47(a2)
	lbu	s8, 48(a2)
	lbu	a4, 49(a2)
	slli	t6, t6, 8
	slli	s4, s4, 16
	slli	s5, s5, 24
	slli	s1, s1, 8
	slli	a3, a3, 16
	slli	a5, a5, 24
	or	t5, t6, t5
	or	t6, s5, s4
	or	s4, s1, s7
	or	s5, a5, a3
	lbu	a5, 34(a2)
	lbu	s1, 35(a2)
	lbu	a3, 36(a2)
	lbu	s0, 37(a2)
	slli	s6, s6, 8
	slli	s8, s8, 16
	slli	a4, a4, 24
	slli	s1, s1, 8
	slli	a3, a3, 16
	slli	s0, s0, 24
	or	t4, s6, t4
	or	s6, a4, s8
	or	s7, s1, a5
	or	s8, s0, a3
	lbu	s0, 39(a2)
	lbu	s1, 38(a2)
	lbu	a4, 40(a2)
	lbu	a5, 41(a2)
	slli	s0, s0, 8
	or	s9, s0, s1
	slli	a4, a4, 16
	slli	a5, a5, 24
	or	a4, a4, a5
	or	a5, t2, a6
	or	s1, t0, a7
	or	a7, t3, t1
	or	s0, t6, t5
	or	a6, s5, s4
	or	a3, s6, t4
	or	t0, s8, s7
	or	a4, a4, s9
	slli	s1, s1, 32
	or	a5, a5, s1
	slli	s0, s0, 32
	or	s1, s0, a7
	slli	a3, a3, 32
	or	a3, a3, a6
	slli	a4, a4, 32
	or	a4, a4, t0
	sd	a4, 8(sp)
	sd	a3, 16(sp)
	sd	s1, 24(sp)
	sd	a5, 32(sp)
	addi	s4, a0, 32
	mv	s5, a0
	addi	a0, sp, 72
	mv	s0, a2
	addi	a2, sp, 8
	li	a3, 32
	mv	s1, a1
	mv	a1, s4
	call	noise_noise_state_symmetric_hash_of_both
	addi	a1, sp, 72
	li	a2, 32
	mv	a0, s4
	call	memcpy
	mv	a0, s5
	mv	a1, s1
	mv	a2, s0
.Lnoise_BB40_7:
	mv	a4, s3
	mv	a3, s2
.Lnoise_BB40_8:
	addi	a3, a3, 1
	addi	a4, a4, -1
	call	noise_noise_handshake_setup_mix_premessage
.Lnoise_BB40_9:
	ld	ra, 184(sp)
	ld	s0, 176(sp)
	ld	s1, 168(sp)
	ld	s2, 160(sp)
	ld	s3, 152(sp)
	ld	s4, 144(sp)
	ld	s5, 136(sp)
	ld	s6, 128(sp)
	ld	s7, 120(sp)
	ld	s8, 112(sp)
	ld	s9, 104(sp)
	.cfi_restore ra
	.cfi_restore s0
	.cfi_restore s1
	.cfi_restore s2
	.cfi_restore s3
	.cfi_restore s4
	.cfi_restore s5
	.cfi_restore s6
	.cfi_restore s7
	.cfi_restore s8
	.cfi_restore s9
	addi	sp, sp, 192
	.cfi_def_cfa_offset 0
	ret
.Lnoise_BB40_10:
	.cfi_restore_state
	unimp
.Lnoise_func_end40:
	.size	noise_noise_handshake_setup_mix_premessage, .Lnoise_func_end40-noise_noise_handshake_setup_mix_premessage
	.cfi_endproc

	.section	".text.noise_names::valid::ValidPattern::overhead","ax",@progbits
	.p2align	1
	.type	noise_noise_names_valid_ValidPattern_overhead,@function
noise_noise_names_valid_ValidPattern_overhead:
	.cfi_startproc
	addi	sp, sp, -80
	.cfi_def_cfa_offset 80
	sd	ra, 72(sp)
	sd	s0, 64(sp)
	sd	s1, 56(sp)
	sd	s2, 48(sp)
	sd	s3, 40(sp)
	.cfi_offset ra, -8
	.cfi_offset s0, -16
	.cfi_offset s1, -24
	.cfi_offset s2, -32
	.cfi_offset s3, -40
	mv	s1, a0
	sd	zero, 8(sp)
	sh	zero, 16(sp)
	zext.b	s0, a1
	addi	s3, s0, -1
	addi	a0, sp, 8
	mv	a1, s1
	mv	a2, s3
	call	noise_noise_names_valid_ValidPattern_seen_after
	ld	a1, 8(sp)
	lbu	a3, 16(sp)
	ld	a6, 264(s1)
	lbu	a2, 17(sp)
	sd	a1, 24(sp)
	sb	a3, 32(sp)
	addi	s1, s1, 72
	beqz	a6, .Lnoise_BB41_7
	li	a1, 0
	mv	a3, s1
	j	.Lnoise_BB41_3
.Lnoise_BB41_2:
	addi	a1, a1, 1
	addi	a3, a3, 24
	beq	a1, a6, .Lnoise_BB41_7
.Lnoise_BB41_3:
	slli	a4, a1, 3
	slli	a5, a1, 4
	add	a4, a4, a5
	add	a4, a4, s1
	ld	a5, 16(a4)
	mv	a4, a3
	beqz	a5, .Lnoise_BB41_2
.Lnoise_BB41_4:
	lbu	s0, 0(a4)
	li	a0, 6
	beq	s0, a0, .Lnoise_BB41_6
	addi	a5, a5, -1
	addi	a4, a4, 1
	bnez	a5, .Lnoise_BB41_4
	j	.Lnoise_BB41_2
.Lnoise_BB41_6:
	li	s2, 1
	j	.Lnoise_BB41_8
.Lnoise_BB41_7:
	li	s2, 0
.Lnoise_BB41_8:
	slli	a0, s3, 3
	slli	s3, s3, 4
	add	a0, a0, s3
	add	a3, s1, a0
	ld	a4, 16(a3)
	addi	a0, sp, 24
	mv	a1, s2
	call	noise_noise_names_seen_Seen_tokens_len
	lbu	a1, 28(sp)
	andi	a1, a1, 1
	bnez	a1, .Lnoise_BB41_17
	lbu	a1, 29(sp)
	andi	a1, a1, 1
	bnez	a1, .Lnoise_BB41_17
	lbu	a1, 30(sp)
	andi	a1, a1, 1
	bnez	a1, .Lnoise_BB41_17
	lbu	a1, 31(sp)
	andi	a1, a1, 1
	bnez	a1, .Lnoise_BB41_17
	lbu	a1, 32(sp)
	beqz	s2, .Lnoise_BB41_16
	andi	a2, a1, 1
	bnez	a2, .Lnoise_BB41_16
	lbu	a1, 24(sp)
	andi	a1, a1, 1
	bnez	a1, .Lnoise_BB41_17
	lbu	a1, 26(sp)
	andi	a1, a1, 1
	beqz	a1, .Lnoise_BB41_18
	j	.Lnoise_BB41_17
.Lnoise_BB41_16:
	or	a1, s2, a1
	andi	a1, a1, 1
	beqz	a1, .Lnoise_BB41_18
.Lnoise_BB41_17:
	li	a1, 16
.Lnoise_BB41_18:
	add	a0, a0, a1
	ld	ra, 72(sp)
	ld	s0, 64(sp)
	ld	s1, 56(sp)
	ld	s2, 48(sp)
	ld	s3, 40(sp)
	.cfi_restore ra
	.cfi_restore s0
	.cfi_restore s1
	.cfi_restore s2
	.cfi_restore s3
	addi	sp, sp, 80
	.cfi_def_cfa_offset 0
	ret
.Lnoise_func_end41:
	.size	noise_noise_names_valid_ValidPattern_overhead, .Lnoise_func_end41-noise_noise_names_valid_ValidPattern_overhead
	.cfi_endproc

	.section	".text.noise_names::seen::Seen::tokens_len","ax",@progbits
	.p2align	1
	.type	noise_noise_names_seen_Seen_tokens_len,@function
noise_noise_names_seen_Seen_tokens_len:
	.cfi_startproc
	beqz	a4, .Lnoise_BB42_23
	zext.b	a6, a2
	beqz	a1, .Lnoise_BB42_6
	beqz	a6, .Lnoise_BB42_24
	lbu	a1, 0(a3)
.Lnoise_pcrel_hi42:
	auipc	a2, %pcrel_hi(.Lnoise_JTI42_1)
	slli	a1, a1, 2
	addi	a2, a2, %pcrel_lo(.Lnoise_pcrel_hi42)
	add	a1, a1, a2
	lw	a1, 0(a1)
	add	a5, a2, a1
	li	a1, 0
	jr	a5
.Lnoise_BB42_4:
	li	a2, 1
	sb	a2, 6(a0)
.Lnoise_BB42_5:
	addi	a4, a4, -1
	addi	a3, a3, 1
	beqz	a4, .Lnoise_BB42_58
.Lnoise_BB42_6:
	lbu	a5, 0(a3)
.Lnoise_pcrel_hi41:
	auipc	a2, %pcrel_hi(.Lnoise_JTI42_0)
	slli	a5, a5, 2
	addi	a2, a2, %pcrel_lo(.Lnoise_pcrel_hi41)
	add	a5, a5, a2
	lw	a5, 0(a5)
	add	a2, a2, a5
	jr	a2
.Lnoise_BB42_7:
	addi	a1, a1, 32
	li	a2, 1
	beqz	a6, .Lnoise_BB42_20
	sb	a2, 2(a0)
	j	.Lnoise_BB42_5
.Lnoise_BB42_9:
	li	a2, 1
	sb	a2, 4(a0)
	j	.Lnoise_BB42_5
.Lnoise_BB42_10:
	li	a2, 1
	sb	a2, 5(a0)
	j	.Lnoise_BB42_5
.Lnoise_BB42_11:
	lbu	a2, 4(a0)
	bnez	a2, .Lnoise_BB42_16
	lbu	a2, 5(a0)
	bnez	a2, .Lnoise_BB42_16
	lbu	a2, 6(a0)
	bnez	a2, .Lnoise_BB42_16
	lbu	a2, 7(a0)
	bnez	a2, .Lnoise_BB42_16
	lbu	a2, 8(a0)
	beqz	a2, .Lnoise_BB42_21
.Lnoise_BB42_16:
	li	a5, 48
	add	a1, a1, a5
	li	a2, 1
	beqz	a6, .Lnoise_BB42_22
.Lnoise_BB42_17:
	sb	a2, 3(a0)
	j	.Lnoise_BB42_5
.Lnoise_BB42_18:
	li	a2, 1
	sb	a2, 7(a0)
	j	.Lnoise_BB42_5
.Lnoise_BB42_19:
	li	a2, 1
	sb	a2, 8(a0)
	j	.Lnoise_BB42_5
.Lnoise_BB42_20:
	sb	a2, 0(a0)
	j	.Lnoise_BB42_5
.Lnoise_BB42_21:
	li	a5, 32
	add	a1, a1, a5
	li	a2, 1
	bnez	a6, .Lnoise_BB42_17
.Lnoise_BB42_22:
	sb	a2, 1(a0)
	j	.Lnoise_BB42_5
.Lnoise_BB42_23:
	li	a0, 0
	ret
.Lnoise_BB42_24:
	li	a1, 0
	j	.Lnoise_BB42_27
.Lnoise_BB42_25:
	li	a2, 1
	sb	a2, 6(a0)
.Lnoise_BB42_26:
	addi	a4, a4, -1
	addi	a3, a3, 1
	beqz	a4, .Lnoise_BB42_58
.Lnoise_BB42_27:
	lbu	a2, 0(a3)
.Lnoise_pcrel_hi43:
	auipc	a5, %pcrel_hi(.Lnoise_JTI42_2)
	slli	a2, a2, 2
	addi	a5, a5, %pcrel_lo(.Lnoise_pcrel_hi43)
	add	a2, a2, a5
	lw	a2, 0(a2)
	add	a2, a2, a5
	jr	a2
.Lnoise_BB42_28:
	addi	a1, a1, 32
	li	a2, 1
	sb	a2, 0(a0)
	j	.Lnoise_BB42_26
.Lnoise_BB42_29:
	li	a2, 1
	sb	a2, 4(a0)
	j	.Lnoise_BB42_26
.Lnoise_BB42_30:
	li	a2, 1
	sb	a2, 5(a0)
	j	.Lnoise_BB42_26
.Lnoise_BB42_31:
	lbu	a2, 4(a0)
	bnez	a2, .Lnoise_BB42_38
	lbu	a2, 5(a0)
	bnez	a2, .Lnoise_BB42_38
	lbu	a2, 6(a0)
	bnez	a2, .Lnoise_BB42_38
	lbu	a2, 7(a0)
	bnez	a2, .Lnoise_BB42_38
	lbu	a2, 8(a0)
	bnez	a2, .Lnoise_BB42_38
	lbu	a2, 0(a0)
	bnez	a2, .Lnoise_BB42_38
	lbu	a2, 2(a0)
	beqz	a2, .Lnoise_BB42_42
.Lnoise_BB42_38:
	li	a2, 48
.Lnoise_BB42_39:
	add	a1, a1, a2
	li	a2, 1
	sb	a2, 1(a0)
	j	.Lnoise_BB42_26
.Lnoise_BB42_40:
	li	a2, 1
	sb	a2, 7(a0)
	j	.Lnoise_BB42_26
.Lnoise_BB42_41:
	li	a2, 1
	sb	a2, 8(a0)
	j	.Lnoise_BB42_26
.Lnoise_BB42_42:
	li	a2, 32
	j	.Lnoise_BB42_39
.Lnoise_BB42_43:
	addi	a3, a3, 1
	lbu	a5, 0(a3)
	slli	a5, a5, 2
	add	a5, a5, a2
	lw	a5, 0(a5)
	add	a5, a5, a2
	jr	a5
.Lnoise_BB42_44:
	addi	a1, a1, 32
	li	a5, 1
	sb	a5, 2(a0)
	j	.Lnoise_BB42_57
.Lnoise_BB42_45:
	li	a5, 1
	sb	a5, 7(a0)
	j	.Lnoise_BB42_57
.Lnoise_BB42_46:
	li	a5, 1
	sb	a5, 5(a0)
	j	.Lnoise_BB42_57
.Lnoise_BB42_47:
	li	a5, 1
	sb	a5, 6(a0)
	j	.Lnoise_BB42_57
.Lnoise_BB42_48:
	lbu	a5, 4(a0)
	bnez	a5, .Lnoise_BB42_55
	lbu	a5, 5(a0)
	bnez	a5, .Lnoise_BB42_55
	lbu	a5, 6(a0)
	bnez	a5, .Lnoise_BB42_55
	lbu	a5, 7(a0)
	bnez	a5, .Lnoise_BB42_55
	lbu	a5, 8(a0)
	bnez	a5, .Lnoise_BB42_55
	lbu	a5, 0(a0)
	bnez	a5, .Lnoise_BB42_55
	lbu	a6, 2(a0)
	li	a5, 32
	beqz	a6, .Lnoise_BB42_56
.Lnoise_BB42_55:
	li	a5, 48
.Lnoise_BB42_56:
	add	a1, a1, a5
	li	a5, 1
	sb	a5, 3(a0)
.Lnoise_BB42_57:
	addi	a4, a4, -1
	bnez	a4, .Lnoise_BB42_43
.Lnoise_BB42_58:
	mv	a0, a1
	ret
.Lnoise_BB42_59:
	li	a5, 1
	sb	a5, 4(a0)
	j	.Lnoise_BB42_57
.Lnoise_BB42_60:
	li	a5, 1
	sb	a5, 8(a0)
	j	.Lnoise_BB42_57
.Lnoise_func_end42:
	.size	noise_noise_names_seen_Seen_tokens_len, .Lnoise_func_end42-noise_noise_names_seen_Seen_tokens_len
	.cfi_endproc
	.section	".rodata.noise_names::seen::Seen::tokens_len","a",@progbits
	.p2align	2, 0x0
.Lnoise_JTI42_0:
	.word	.Lnoise_BB42_7-.Lnoise_JTI42_0
	.word	.Lnoise_BB42_11-.Lnoise_JTI42_0
	.word	.Lnoise_BB42_9-.Lnoise_JTI42_0
	.word	.Lnoise_BB42_10-.Lnoise_JTI42_0
	.word	.Lnoise_BB42_4-.Lnoise_JTI42_0
	.word	.Lnoise_BB42_18-.Lnoise_JTI42_0
	.word	.Lnoise_BB42_19-.Lnoise_JTI42_0
.Lnoise_JTI42_1:
	.word	.Lnoise_BB42_44-.Lnoise_JTI42_1
	.word	.Lnoise_BB42_48-.Lnoise_JTI42_1
	.word	.Lnoise_BB42_59-.Lnoise_JTI42_1
	.word	.Lnoise_BB42_46-.Lnoise_JTI42_1
	.word	.Lnoise_BB42_47-.Lnoise_JTI42_1
	.word	.Lnoise_BB42_45-.Lnoise_JTI42_1
	.word	.Lnoise_BB42_60-.Lnoise_JTI42_1
.Lnoise_JTI42_2:
	.word	.Lnoise_BB42_28-.Lnoise_JTI42_2
	.word	.Lnoise_BB42_31-.Lnoise_JTI42_2
	.word	.Lnoise_BB42_29-.Lnoise_JTI42_2
	.word	.Lnoise_BB42_30-.Lnoise_JTI42_2
	.word	.Lnoise_BB42_25-.Lnoise_JTI42_2
	.word	.Lnoise_BB42_40-.Lnoise_JTI42_2
	.word	.Lnoise_BB42_41-.Lnoise_JTI42_2

	.section	".text.noise_c::message_layout::piece","ax",@progbits
	.p2align	1
	.type	noise_noise_c_message_layout_piece,@function
noise_noise_c_message_layout_piece:
	.cfi_startproc
	addi	sp, sp, -144
	.cfi_def_cfa_offset 144
	sd	ra, 136(sp)
	sd	s0, 128(sp)
	sd	s1, 120(sp)
	sd	s2, 112(sp)
	sd	s3, 104(sp)
	sd	s4, 96(sp)
	sd	s5, 88(sp)
	sd	s6, 80(sp)
	sd	s7, 72(sp)
	sd	s8, 64(sp)
	sd	s9, 56(sp)
	sd	s10, 48(sp)
	sd	s11, 40(sp)
	.cfi_offset ra, -8
	.cfi_offset s0, -16
	.cfi_offset s1, -24
	.cfi_offset s2, -32
	.cfi_offset s3, -40
	.cfi_offset s4, -48
	.cfi_offset s5, -56
	.cfi_offset s6, -64
	.cfi_offset s7, -72
	.cfi_offset s8, -80
	.cfi_offset s9, -88
	.cfi_offset s10, -96
	.cfi_offset s11, -104
	mv	s0, a6
	mv	s4, a5
	mv	s3, a4
	mv	s6, a3
	mv	s5, a1
	mv	s2, a0
	sd	zero, 8(sp)
	sh	zero, 16(sp)
	zext.b	s8, a2
	addi	s8, s8, -1
	addi	a0, sp, 8
	mv	a2, s8
	call	noise_noise_names_valid_ValidPattern_seen_after
	ld	a0, 8(sp)
	lbu	a1, 16(sp)
	ld	s9, 264(s5)
	lbu	a2, 17(sp)
	sd	a0, 24(sp)
	sb	a1, 32(sp)
	addi	s11, s5, 72
	beqz	s9, .Lnoise_BB43_7
	li	a0, 0
	mv	a1, s11
	j	.Lnoise_BB43_3
.Lnoise_BB43_2:
	addi	a0, a0, 1
	addi	a1, a1, 24
	beq	a0, s9, .Lnoise_BB43_7
.Lnoise_BB43_3:
	slli	a3, a0, 3
	slli	a4, a0, 4
	add	a3, a3, a4
	add	a3, a3, s11
	ld	a3, 16(a3)
	mv	a4, a1
	beqz	a3, .Lnoise_BB43_2
.Lnoise_BB43_4:
	lbu	a5, 0(a4)
	li	s1, 6
	beq	a5, s1, .Lnoise_BB43_6
	addi	a3, a3, -1
	addi	a4, a4, 1
	bnez	a3, .Lnoise_BB43_4
	j	.Lnoise_BB43_2
.Lnoise_BB43_6:
	li	a1, 1
	j	.Lnoise_BB43_8
.Lnoise_BB43_7:
	li	a1, 0
.Lnoise_BB43_8:
	zext.b	s6, s6
	slli	a0, s8, 3
	slli	a3, s8, 4
	add	a0, a0, a3
	add	s7, s11, a0
	addi	a0, sp, 24
	mv	a3, s7
	mv	a4, s6
	call	noise_noise_names_seen_Seen_tokens_len
	lbu	a0, 28(sp)
	beqz	s9, .Lnoise_BB43_15
	li	a1, 0
	mv	a2, s11
	j	.Lnoise_BB43_11
.Lnoise_BB43_10:
	addi	a1, a1, 1
	addi	a2, a2, 24
	beq	a1, s9, .Lnoise_BB43_15
.Lnoise_BB43_11:
	slli	a3, a1, 3
	slli	a4, a1, 4
	add	a3, a3, a4
	add	a3, a3, s11
	ld	a3, 16(a3)
	mv	a4, a2
	beqz	a3, .Lnoise_BB43_10
.Lnoise_BB43_12:
	lbu	a5, 0(a4)
	li	s1, 6
	beq	a5, s1, .Lnoise_BB43_14
	addi	a3, a3, -1
	addi	a4, a4, 1
	bnez	a3, .Lnoise_BB43_12
	j	.Lnoise_BB43_10
.Lnoise_BB43_14:
	li	a1, 1
	andi	a0, a0, 1
	li	s10, 1
	beqz	a0, .Lnoise_BB43_16
	j	.Lnoise_BB43_22
.Lnoise_BB43_15:
	li	a1, 0
	andi	a0, a0, 1
	li	s10, 1
	bnez	a0, .Lnoise_BB43_22
.Lnoise_BB43_16:
	lbu	a0, 29(sp)
	andi	a0, a0, 1
	bnez	a0, .Lnoise_BB43_22
	lbu	a0, 30(sp)
	andi	a0, a0, 1
	bnez	a0, .Lnoise_BB43_22
	lbu	a0, 31(sp)
	andi	a0, a0, 1
	bnez	a0, .Lnoise_BB43_22
	lbu	a0, 32(sp)
	andi	a2, a0, 1
	or	s10, a1, a0
	bnez	a2, .Lnoise_BB43_22
	xori	a0, a1, 1
	bnez	a0, .Lnoise_BB43_22
	lbu	a0, 24(sp)
	lbu	a1, 26(sp)
	or	s10, a0, a1
.Lnoise_BB43_22:
	sd	zero, 8(sp)
	sh	zero, 16(sp)
	addi	a0, sp, 8
	mv	a1, s5
	mv	a2, s8
	call	noise_noise_names_valid_ValidPattern_seen_after
	ld	a0, 8(sp)
	lbu	a1, 16(sp)
	lbu	a2, 17(sp)
	sd	a0, 24(sp)
	sb	a1, 32(sp)
	beqz	s9, .Lnoise_BB43_29
	li	a0, 0
	mv	a1, s11
	j	.Lnoise_BB43_25
.Lnoise_BB43_24:
	addi	a0, a0, 1
	addi	a1, a1, 24
	beq	a0, s9, .Lnoise_BB43_29
.Lnoise_BB43_25:
	slli	a3, a0, 3
	slli	a4, a0, 4
	add	a3, a3, a4
	add	a3, a3, s11
	ld	a3, 16(a3)
	mv	a4, a1
	beqz	a3, .Lnoise_BB43_24
.Lnoise_BB43_26:
	lbu	a5, 0(a4)
	li	s1, 6
	beq	a5, s1, .Lnoise_BB43_28
	addi	a3, a3, -1
	addi	a4, a4, 1
	bnez	a3, .Lnoise_BB43_26
	j	.Lnoise_BB43_24
.Lnoise_BB43_28:
	mv	s5, s0
	li	a1, 1
	j	.Lnoise_BB43_30
.Lnoise_BB43_29:
	mv	s5, s0
	li	a1, 0
.Lnoise_BB43_30:
	and	s1, s4, s10
	slli	s0, s1, 4
	addi	a0, sp, 24
	mv	a3, s7
	mv	a4, s6
	call	noise_noise_names_seen_Seen_tokens_len
	add	s0, s0, s5
	sb	s3, 0(s2)
	sb	s1, 1(s2)
	sb	zero, 2(s2)
	sb	zero, 3(s2)
	srli	a1, a0, 8
	sb	a0, 4(s2)
	sb	a1, 5(s2)
	sb	zero, 6(s2)
	sb	zero, 7(s2)
	srli	a0, s0, 24
	srli	a1, s0, 16
	srli	a2, s0, 8
	sb	s0, 8(s2)
	sb	a2, 9(s2)
	sb	a1, 10(s2)
	sb	a0, 11(s2)
	ld	ra, 136(sp)
	ld	s0, 128(sp)
	ld	s1, 120(sp)
	ld	s2, 112(sp)
	ld	s3, 104(sp)
	ld	s4, 96(sp)
	ld	s5, 88(sp)
	ld	s6, 80(sp)
	ld	s7, 72(sp)
	ld	s8, 64(sp)
	ld	s9, 56(sp)
	ld	s10, 48(sp)
	ld	s11, 40(sp)
	.cfi_restore ra
	.cfi_restore s0
	.cfi_restore s1
	.cfi_restore s2
	.cfi_restore s3
	.cfi_restore s4
	.cfi_restore s5
	.cfi_restore s6
	.cfi_restore s7
	.cfi_restore s8
	.cfi_restore s9
	.cfi_restore s10
	.cfi_restore s11
	addi	sp, sp, 144
	.cfi_def_cfa_offset 0
	ret
.Lnoise_func_end43:
	.size	noise_noise_c_message_layout_piece, .Lnoise_func_end43-noise_noise_c_message_layout_piece
	.cfi_endproc

	.section	".text.noise_c::split::finished","ax",@progbits
	.p2align	1
	.type	noise_noise_c_split_finished,@function
noise_noise_c_split_finished:
	.cfi_startproc
	addi	sp, sp, -496
	.cfi_def_cfa_offset 496
	sd	ra, 488(sp)
	sd	s0, 480(sp)
	sd	s1, 472(sp)
	sd	s2, 464(sp)
	sd	s3, 456(sp)
	sd	s4, 448(sp)
	sd	s5, 440(sp)
	sd	s6, 432(sp)
	sd	s7, 424(sp)
	sd	s8, 416(sp)
	sd	s9, 408(sp)
	sd	s10, 400(sp)
	sd	s11, 392(sp)
	.cfi_offset ra, -8
	.cfi_offset s0, -16
	.cfi_offset s1, -24
	.cfi_offset s2, -32
	.cfi_offset s3, -40
	.cfi_offset s4, -48
	.cfi_offset s5, -56
	.cfi_offset s6, -64
	.cfi_offset s7, -72
	.cfi_offset s8, -80
	.cfi_offset s9, -88
	.cfi_offset s10, -96
	.cfi_offset s11, -104
	addi	sp, sp, -1792
	.cfi_def_cfa_offset 2288
	.cfi_remember_state
	mv	s2, a1
	mv	s0, a0
	addi	s3, sp, 2008
	sd	zero, 288(sp)
	sd	zero, 296(sp)
	sd	zero, 304(sp)
	sd	zero, 312(sp)
	sd	zero, 256(sp)
	sd	zero, 264(sp)
	sd	zero, 272(sp)
	sd	zero, 280(sp)
	sw	zero, 248(sp)
	sb	zero, 252(sp)
	sd	zero, 216(sp)
	sd	zero, 224(sp)
	sd	zero, 232(sp)
	sd	zero, 240(sp)
	sw	zero, 208(sp)
	sh	zero, 212(sp)
	sb	zero, 214(sp)
	sd	zero, 176(sp)
	sd	zero, 184(sp)
	sd	zero, 192(sp)
	sd	zero, 200(sp)
	sw	zero, 168(sp)
	sh	zero, 172(sp)
	sb	zero, 174(sp)
	sd	zero, 136(sp)
	sd	zero, 144(sp)
	sd	zero, 152(sp)
	sd	zero, 160(sp)
	sd	zero, 104(sp)
	sd	zero, 112(sp)
	sd	zero, 120(sp)
	sd	zero, 128(sp)
	sw	zero, 96(sp)
	sb	zero, 100(sp)
	sd	zero, 64(sp)
	sd	zero, 72(sp)
	sd	zero, 80(sp)
	sd	zero, 88(sp)
	sw	zero, 56(sp)
	sh	zero, 60(sp)
	sb	zero, 62(sp)
	sd	zero, 24(sp)
	sd	zero, 32(sp)
	sd	zero, 40(sp)
	sd	zero, 48(sp)
	sw	zero, 16(sp)
	sh	zero, 20(sp)
	sb	zero, 22(sp)
	sd	zero, 504(sp)
	sd	zero, 512(sp)
	sd	zero, 520(sp)
	sd	zero, 528(sp)
	sd	zero, 472(sp)
	sd	zero, 480(sp)
	sd	zero, 488(sp)
	sd	zero, 496(sp)
	sd	zero, 440(sp)
	sd	zero, 448(sp)
	sd	zero, 456(sp)
	sd	zero, 464(sp)
	sd	zero, 408(sp)
	sd	zero, 416(sp)
	sd	zero, 424(sp)
	sd	zero, 432(sp)
	sw	zero, 400(sp)
	sb	zero, 404(sp)
	sd	zero, 368(sp)
	sd	zero, 376(sp)
	sd	zero, 384(sp)
	sd	zero, 392(sp)
	sw	zero, 360(sp)
	sh	zero, 364(sp)
	sb	zero, 366(sp)
	sd	zero, 328(sp)
	sd	zero, 336(sp)
	sd	zero, 344(sp)
	sd	zero, 352(sp)
	sw	zero, 320(sp)
	sh	zero, 324(sp)
	sb	zero, 326(sp)
	addi	a0, sp, 1024
	li	a2, 872
	li	a1, 0
	call	memset
	lw	a0, 0(s2)
	lui	a1, 321264
	addi	a1, a1, 257
	bne	a0, a1, .Lnoise_BB44_9
	lhu	a2, 420(s2)
	li	a0, 416
	bltu	a0, a2, .Lnoise_BB44_9
	lbu	a0, 846(s2)
	li	a1, 8
	bltu	a1, a0, .Lnoise_BB44_9
	lbu	a0, 557(s2)
	li	a1, 9
	bltu	a1, a0, .Lnoise_BB44_9
	addi	a1, s2, 4
	addi	a0, sp, 744
	call	noise_noise_c_patterns_pattern_of
	lbu	a0, 744(sp)
	bnez	a0, .Lnoise_BB44_9
	addi	a2, sp, 752
	addi	a0, sp, 1024
	mv	a1, s2
	call	noise_noise_c_from_c_restored
	ld	s7, 1296(sp)
	lbu	s1, 1336(sp)
	lbu	s4, 1377(sp)
	lhu	a6, 1378(sp)
	lhu	a7, 1380(sp)
	lhu	t0, 1382(sp)
	lhu	t1, 1384(sp)
	lhu	t2, 1386(sp)
	lhu	a5, 1388(sp)
	lhu	a0, 1390(sp)
	lhu	a1, 1392(sp)
	lhu	t3, 1394(sp)
	lhu	t4, 1404(sp)
	slli	a7, a7, 16
	slli	t0, t0, 32
	slli	t1, t1, 48
	slli	a5, a5, 16
	slli	a0, a0, 32
	slli	a1, a1, 48
	or	a6, a7, a6
	or	a7, t1, t0
	or	t0, a5, t2
	or	a0, a0, a1
	lhu	a1, 1396(sp)
	lhu	a3, 1398(sp)
	lhu	a4, 1400(sp)
	lhu	a2, 1402(sp)
	slli	a1, a1, 16
	slli	a3, a3, 32
	slli	a4, a4, 48
	or	a1, a1, t3
	or	a3, a3, a4
	lhu	a4, 1406(sp)
	lhu	a5, 1408(sp)
	slli	t4, t4, 16
	or	a2, t4, a2
	slli	a4, a4, 32
	slli	a5, a5, 48
	or	a4, a4, a5
	or	a5, a7, a6
	or	a0, a0, t0
	lbu	s8, 1024(sp)
	or	a1, a1, a3
	or	a2, a2, a4
	lbu	s5, 1720(sp)
	lbu	s6, 1721(sp)
	sd	a5, 712(sp)
	sd	a0, 720(sp)
	sd	a1, 728(sp)
	sd	a2, 736(sp)
	addi	a1, sp, 1722
	addi	a0, sp, 536
	li	a2, 174
	call	memcpy
	li	a0, 1
	bne	s8, a0, .Lnoise_BB44_9
	sltu	a0, s5, s7
	or	s6, s6, a0
	andi	a0, s6, 1
	beqz	a0, .Lnoise_BB44_16
	lbu	a0, 423(s2)
	beqz	a0, .Lnoise_BB44_17
	li	s10, 13
	j	.Lnoise_BB44_18
.Lnoise_BB44_9:
	li	a2, 0
	li	ra, 0
	li	s11, 0
	li	s4, 0
	li	s5, 0
	sd	zero, 136(sp)
	sd	zero, 144(sp)
	sd	zero, 152(sp)
	sd	zero, 160(sp)
	sd	zero, 104(sp)
	sd	zero, 112(sp)
	sd	zero, 120(sp)
	sd	zero, 128(sp)
	sw	zero, 96(sp)
	sb	zero, 100(sp)
	sd	zero, 64(sp)
	sd	zero, 72(sp)
	sd	zero, 80(sp)
	sd	zero, 88(sp)
	sw	zero, 56(sp)
	sh	zero, 60(sp)
	sb	zero, 62(sp)
	sd	zero, 24(sp)
	sd	zero, 32(sp)
	sd	zero, 40(sp)
	sd	zero, 48(sp)
	sw	zero, 16(sp)
	sh	zero, 20(sp)
	sb	zero, 22(sp)
	li	s10, 23
.Lnoise_BB44_10:
	li	s9, 0
	li	s7, 0
	li	s8, 0
	li	s6, 0
	sd	zero, 1024(sp)
	sd	zero, 1032(sp)
	sd	zero, 1040(sp)
	sd	zero, 1048(sp)
	sd	zero, 744(sp)
	sd	zero, 752(sp)
	sd	zero, 760(sp)
	sd	zero, 768(sp)
	sd	zero, 536(sp)
	sd	zero, 544(sp)
	sd	zero, 552(sp)
	sd	zero, 560(sp)
	sb	zero, 118(s3)
	sw	zero, 144(s3)
	sh	zero, 148(s3)
	sb	zero, 150(s3)
	sd	zero, 1896(sp)
	sd	zero, 1904(sp)
	sd	zero, 1912(sp)
	sd	zero, 1920(sp)
	andi	t0, a2, 1
	sw	zero, 80(s3)
	sb	zero, 84(s3)
	sw	zero, 112(s3)
	sh	zero, 116(s3)
	beqz	t0, .Lnoise_BB44_12
	li	s10, 0
	ld	a5, 136(sp)
	ld	a0, 144(sp)
	ld	a1, 152(sp)
	ld	s1, 160(sp)
	ld	t1, 104(sp)
	ld	a4, 112(sp)
	ld	a2, 120(sp)
	ld	a3, 128(sp)
	lw	a6, 96(sp)
	lbu	a7, 100(sp)
	sd	a5, 1024(sp)
	sd	a0, 1032(sp)
	sd	a1, 1040(sp)
	sd	s1, 1048(sp)
	ld	a0, 64(sp)
	ld	a1, 72(sp)
	ld	a5, 80(sp)
	ld	s1, 88(sp)
	sd	t1, 744(sp)
	sd	a4, 752(sp)
	sd	a2, 760(sp)
	sd	a3, 768(sp)
	lw	a2, 16(sp)
	lh	a3, 20(sp)
	lbu	a4, 22(sp)
	sd	a0, 536(sp)
	sd	a1, 544(sp)
	sd	a5, 552(sp)
	sd	s1, 560(sp)
	lw	a0, 56(sp)
	lh	a1, 60(sp)
	lbu	a5, 62(sp)
	sb	a4, 118(s3)
	sw	a0, 144(s3)
	sh	a1, 148(s3)
	sb	a5, 150(s3)
	ld	a0, 24(sp)
	ld	a1, 32(sp)
	ld	a4, 40(sp)
	ld	a5, 48(sp)
	sd	a0, 1896(sp)
	sd	a1, 1904(sp)
	sd	a4, 1912(sp)
	sd	a5, 1920(sp)
	sw	a6, 80(s3)
	sb	a7, 84(s3)
	sw	a2, 112(s3)
	sh	a3, 116(s3)
	mv	s9, ra
	mv	s7, s11
	mv	s8, s4
	mv	s6, s5
.Lnoise_BB44_12:
	ld	a0, 1024(sp)
	ld	a1, 1032(sp)
	ld	a2, 1040(sp)
	ld	a3, 1048(sp)
	ld	a6, 744(sp)
	ld	a7, 752(sp)
	ld	t1, 760(sp)
	ld	t2, 768(sp)
	ld	t5, 536(sp)
	ld	s1, 544(sp)
	ld	t4, 552(sp)
	ld	t3, 560(sp)
	sd	a0, 288(sp)
	sd	a1, 296(sp)
	sd	a2, 304(sp)
	sd	a3, 312(sp)
	lw	a0, 80(s3)
	lbu	a1, 84(s3)
	lw	a2, 112(s3)
	lh	a3, 116(s3)
	sd	a6, 256(sp)
	sd	a7, 264(sp)
	sd	t1, 272(sp)
	sd	t2, 280(sp)
	sw	a0, 248(sp)
	sb	a1, 252(sp)
	lbu	a0, 118(s3)
	lw	a1, 144(s3)
	lh	a4, 148(s3)
	lbu	a5, 150(s3)
	sd	t5, 216(sp)
	sd	s1, 224(sp)
	sd	t4, 232(sp)
	sd	t3, 240(sp)
	sw	a1, 208(sp)
	sh	a4, 212(sp)
	sb	a5, 214(sp)
	ld	a1, 1896(sp)
	ld	a4, 1904(sp)
	ld	a5, 1912(sp)
	ld	s1, 1920(sp)
	sd	a1, 176(sp)
	sd	a4, 184(sp)
	sd	a5, 192(sp)
	sd	s1, 200(sp)
	sw	a2, 168(sp)
	sh	a3, 172(sp)
	sb	a0, 174(sp)
	li	a0, 1
	beqz	t0, .Lnoise_BB44_14
	sb	a0, 423(s2)
	addi	s1, s2, 557
	addi	a0, s2, 1432
	li	a2, 32
	li	a1, 0
	call	memset
	li	a2, 842
	mv	a0, s1
	li	a1, 0
	call	memset
	sb	zero, 0(s0)
	sb	zero, 1(s0)
	sb	zero, 2(s0)
	sb	zero, 3(s0)
	sb	zero, 4(s0)
	sb	zero, 5(s0)
	sb	zero, 6(s0)
	sb	zero, 7(s0)
	sb	s9, 8(s0)
	addi	a0, s0, 10
	addi	a1, sp, 288
	li	a2, 32
	call	memcpy
	addi	a0, s0, 43
	addi	a1, sp, 256
	li	a2, 32
	call	memcpy
	lbu	a0, 248(sp)
	lbu	a1, 249(sp)
	lbu	a2, 250(sp)
	lbu	a3, 251(sp)
	lbu	a4, 252(sp)
	sb	a0, 75(s0)
	sb	a1, 76(s0)
	sb	a2, 77(s0)
	sb	a3, 78(s0)
	sb	a4, 79(s0)
	addi	a0, s0, 81
	addi	a1, sp, 216
	li	a2, 32
	call	memcpy
	lbu	a0, 208(sp)
	lbu	a1, 209(sp)
	lbu	a2, 210(sp)
	lbu	a3, 211(sp)
	lbu	a4, 212(sp)
	lbu	a5, 213(sp)
	lbu	s1, 214(sp)
	sb	a0, 113(s0)
	sb	a1, 114(s0)
	sb	a2, 115(s0)
	sb	a3, 116(s0)
	sb	a4, 117(s0)
	sb	a5, 118(s0)
	sb	s1, 119(s0)
	addi	a0, s0, 129
	addi	a1, sp, 176
	li	a2, 32
	call	memcpy
	lbu	a0, 168(sp)
	lbu	a1, 169(sp)
	lbu	a2, 170(sp)
	lbu	a3, 171(sp)
	lbu	a4, 172(sp)
	lbu	a5, 173(sp)
	lbu	s1, 174(sp)
	sb	a0, 161(s0)
	sb	a1, 162(s0)
	sb	a2, 163(s0)
	sb	a3, 164(s0)
	sb	a4, 165(s0)
	sb	a5, 166(s0)
	sb	s1, 167(s0)
	j	.Lnoise_BB44_15
.Lnoise_BB44_14:
	sb	s10, 4(s0)
	sb	zero, 5(s0)
	sb	zero, 6(s0)
	sb	zero, 7(s0)
	sb	zero, 8(s0)
	sb	a0, 0(s0)
	sb	zero, 1(s0)
	sb	zero, 2(s0)
	sb	zero, 3(s0)
	addi	a0, s0, 10
	li	a2, 32
	li	a1, 0
	call	memset
	addi	a0, s0, 43
	addi	s1, s0, 81
	addi	s2, s0, 129
	li	a2, 37
	li	a1, 0
	call	memset
	li	a2, 39
	mv	a0, s1
	li	a1, 0
	call	memset
	li	a2, 39
	mv	a0, s2
	li	a1, 0
	call	memset
	li	s7, 0
	li	s8, 0
	li	s6, 0
.Lnoise_BB44_15:
	sb	zero, 121(s0)
	sb	zero, 122(s0)
	sb	zero, 123(s0)
	sb	zero, 124(s0)
	sb	s7, 9(s0)
	sb	s8, 42(s0)
	sb	s6, 80(s0)
	sb	zero, 120(s0)
	sb	zero, 125(s0)
	sb	zero, 126(s0)
	sb	zero, 127(s0)
	sb	s6, 128(s0)
	sb	zero, 172(s0)
	sb	zero, 173(s0)
	sb	zero, 174(s0)
	sb	zero, 175(s0)
	sb	zero, 168(s0)
	sb	zero, 169(s0)
	sb	zero, 170(s0)
	sb	zero, 171(s0)
	addi	sp, sp, 1792
	.cfi_def_cfa_offset 496
	ld	ra, 488(sp)
	ld	s0, 480(sp)
	ld	s1, 472(sp)
	ld	s2, 464(sp)
	ld	s3, 456(sp)
	ld	s4, 448(sp)
	ld	s5, 440(sp)
	ld	s6, 432(sp)
	ld	s7, 424(sp)
	ld	s8, 416(sp)
	ld	s9, 408(sp)
	ld	s10, 400(sp)
	ld	s11, 392(sp)
	.cfi_restore ra
	.cfi_restore s0
	.cfi_restore s1
	.cfi_restore s2
	.cfi_restore s3
	.cfi_restore s4
	.cfi_restore s5
	.cfi_restore s6
	.cfi_restore s7
	.cfi_restore s8
	.cfi_restore s9
	.cfi_restore s10
	.cfi_restore s11
	addi	sp, sp, 496
	.cfi_def_cfa_offset 0
	ret
.Lnoise_BB44_16:
	.cfi_restore_state
	addi	a1, sp, 598
	addi	a0, sp, 1896
	li	a2, 112
	call	memcpy
	addi	a0, sp, 744
	li	a2, 208
	li	a1, 0
	call	memset
.Lnoise_pcrel_hi44:
	auipc	a0, %pcrel_hi(.Lnoise_static.1)
	addi	a0, a0, %pcrel_lo(.Lnoise_pcrel_hi44)
	sd	a0, 0(s3)
	sd	zero, 8(s3)
	sd	zero, 16(s3)
	sd	zero, 24(s3)
	sd	zero, 32(s3)
	sd	zero, 40(s3)
	addi	a0, sp, 1024
	li	a2, 208
	li	a1, 0
	call	memset
	addi	a0, sp, 1024
	addi	a1, sp, 1896
	call	noise_noise_kdf_keyed_Hmac_new
	addi	a0, sp, 2024
	addi	a1, sp, 1024
	addi	a2, sp, 2008
	li	a3, 1
	li	s5, 1
	call	noise_noise_kdf_keyed_Hmac_code
	addi	a0, sp, 744
	addi	a1, sp, 2024
	call	noise_noise_kdf_keyed_Hmac_new
	sd	zero, 112(s3)
	sd	zero, 120(s3)
	sd	zero, 128(s3)
	sd	zero, 136(s3)
	sd	zero, 80(s3)
	sd	zero, 88(s3)
	sd	zero, 96(s3)
	sd	zero, 104(s3)
.Lnoise_pcrel_hi45:
	auipc	a2, %pcrel_hi(.Lnoise_static.102)
	addi	a0, sp, 2047
	addi	a0, a0, 41
	addi	a1, sp, 744
	addi	a2, a2, %pcrel_lo(.Lnoise_pcrel_hi45)
	li	a3, 1
	call	noise_noise_kdf_keyed_Hmac_code
	ld	a0, 80(s3)
	ld	a1, 88(s3)
	ld	a2, 96(s3)
	ld	a3, 104(s3)
	addi	a4, sp, 2047
	addi	a4, a4, 105
	li	a5, 32
	sd	a0, 144(s3)
	sd	a1, 152(s3)
	sd	a2, 160(s3)
	sd	a3, 168(s3)
.Lnoise_pcrel_hi46:
	auipc	a0, %pcrel_hi(.Lnoise_static.103)
	addi	a0, a0, %pcrel_lo(.Lnoise_pcrel_hi46)
	sd	a4, 48(s3)
	sd	a5, 56(s3)
	sd	a0, 64(s3)
	sd	s5, 72(s3)
	addi	a0, sp, 2047
	addi	a0, a0, 73
	addi	a1, sp, 744
	addi	a2, sp, 2047
	addi	a2, a2, 9
	li	a3, 2
	call	noise_noise_kdf_keyed_Hmac_code
	ld	a0, 144(s3)
	ld	a1, 152(s3)
	ld	a2, 160(s3)
	ld	a3, 168(s3)
	sd	a0, 1024(sp)
	sd	a1, 1032(sp)
	sd	a2, 1040(sp)
	sd	a3, 1048(sp)
	addi	a0, sp, 1056
	addi	a1, sp, 2047
	addi	a1, a1, 73
	li	a2, 32
	call	memcpy
	li	s10, 0
	ld	a2, 1024(sp)
	ld	a5, 1032(sp)
	ld	a1, 1040(sp)
	ld	a3, 1048(sp)
	ld	t1, 1056(sp)
	ld	t2, 1064(sp)
	ld	t3, 1072(sp)
	ld	a4, 1080(sp)
	lhu	a6, 630(sp)
	lhu	a7, 632(sp)
	lhu	t0, 634(sp)
	lhu	t4, 636(sp)
	sd	a2, 504(sp)
	sd	a5, 512(sp)
	sd	a1, 520(sp)
	sd	a3, 528(sp)
	lhu	t5, 638(sp)
	lhu	t6, 640(sp)
	lhu	s8, 642(sp)
	lhu	s9, 644(sp)
	sd	t1, 472(sp)
	sd	t2, 480(sp)
	sd	t3, 488(sp)
	sd	a4, 496(sp)
	ld	a4, 712(sp)
	ld	a2, 720(sp)
	ld	a1, 728(sp)
	ld	a3, 736(sp)
	slli	a7, a7, 16
	slli	t0, t0, 32
	slli	t4, t4, 48
	sd	a4, 408(sp)
	sd	a2, 416(sp)
	sd	a1, 424(sp)
	sd	a3, 432(sp)
	or	a6, a7, a6
	or	a7, t4, t0
	lhu	a3, 646(sp)
	lhu	a4, 648(sp)
	lhu	a5, 650(sp)
	lhu	a1, 652(sp)
	slli	t6, t6, 16
	slli	s8, s8, 32
	slli	s9, s9, 48
	slli	a4, a4, 16
	slli	a5, a5, 32
	slli	a1, a1, 48
	or	t0, t6, t5
	or	t1, s9, s8
	or	t2, a4, a3
	or	a1, a1, a5
	lhu	a4, 656(sp)
	lhu	a5, 654(sp)
	lhu	a2, 658(sp)
	lhu	a3, 660(sp)
	slli	a4, a4, 16
	or	a4, a4, a5
	slli	a2, a2, 32
	slli	a3, a3, 48
	or	a2, a2, a3
	or	a3, a7, a6
	or	a5, t1, t0
	or	a6, a1, t2
	or	a2, a2, a4
	addi	s7, s7, -1
	sw	zero, 400(sp)
	sb	zero, 404(sp)
	sw	zero, 360(sp)
	sh	zero, 364(sp)
	sb	zero, 366(sp)
	seqz	s11, s7
	sd	a3, 440(sp)
	sd	a5, 448(sp)
	sd	a6, 456(sp)
	sd	a2, 464(sp)
	ld	a2, 504(sp)
	ld	a3, 512(sp)
	ld	a4, 520(sp)
	ld	a5, 528(sp)
	sd	a2, 368(sp)
	sd	a3, 376(sp)
	sd	a4, 384(sp)
	sd	a5, 392(sp)
	ld	a2, 472(sp)
	ld	a3, 480(sp)
	ld	a4, 488(sp)
	ld	a5, 496(sp)
	sd	a2, 328(sp)
	sd	a3, 336(sp)
	sd	a4, 344(sp)
	sd	a5, 352(sp)
	sw	zero, 320(sp)
	sh	zero, 324(sp)
	sb	zero, 326(sp)
	mv	ra, s1
	j	.Lnoise_BB44_19
.Lnoise_BB44_17:
	li	s10, 19
.Lnoise_BB44_18:
	li	ra, 0
	li	s11, 0
	li	s4, 0
	li	s5, 0
.Lnoise_BB44_19:
	ld	a2, 440(sp)
	ld	a3, 448(sp)
	ld	a4, 456(sp)
	ld	a5, 464(sp)
	ld	a6, 408(sp)
	ld	a7, 416(sp)
	ld	t0, 424(sp)
	ld	t1, 432(sp)
	lw	t2, 400(sp)
	lbu	t3, 404(sp)
	sd	a2, 136(sp)
	sd	a3, 144(sp)
	sd	a4, 152(sp)
	sd	a5, 160(sp)
	ld	t4, 368(sp)
	ld	t5, 376(sp)
	ld	t6, 384(sp)
	ld	a5, 392(sp)
	sd	a6, 104(sp)
	sd	a7, 112(sp)
	sd	t0, 120(sp)
	sd	t1, 128(sp)
	sw	t2, 96(sp)
	sb	t3, 100(sp)
	lw	a2, 360(sp)
	lh	a3, 364(sp)
	lbu	a4, 366(sp)
	sd	t4, 64(sp)
	sd	t5, 72(sp)
	sd	t6, 80(sp)
	sd	a5, 88(sp)
	sw	a2, 56(sp)
	sh	a3, 60(sp)
	sb	a4, 62(sp)
	ld	a2, 328(sp)
	ld	a3, 336(sp)
	ld	a4, 344(sp)
	ld	a5, 352(sp)
	sd	a2, 24(sp)
	sd	a3, 32(sp)
	sd	a4, 40(sp)
	sd	a5, 48(sp)
	lw	a3, 320(sp)
	lh	a4, 324(sp)
	lbu	a5, 326(sp)
	xori	a2, s6, 1
	sw	a3, 16(sp)
	sh	a4, 20(sp)
	sb	a5, 22(sp)
	j	.Lnoise_BB44_10
.Lnoise_func_end44:
	.size	noise_noise_c_split_finished, .Lnoise_func_end44-noise_noise_c_split_finished
	.cfi_endproc

	.section	".text.noise_handshake::writer::write_lacking::<#9bbb2dae5a99aff0>","ax",@progbits
	.p2align	1
	.type	noise_noise_handshake_writer_write_lacking_9bbb2dae5a99aff0,@function
noise_noise_handshake_writer_write_lacking_9bbb2dae5a99aff0:
	.cfi_startproc
	addi	sp, sp, -224
	.cfi_def_cfa_offset 224
	sd	ra, 216(sp)
	sd	s0, 208(sp)
	sd	s1, 200(sp)
	sd	s2, 192(sp)
	sd	s3, 184(sp)
	sd	s4, 176(sp)
	sd	s5, 168(sp)
	sd	s6, 160(sp)
	sd	s7, 152(sp)
	sd	s8, 144(sp)
	sd	s9, 136(sp)
	sd	s10, 128(sp)
	sd	s11, 120(sp)
	.cfi_offset ra, -8
	.cfi_offset s0, -16
	.cfi_offset s1, -24
	.cfi_offset s2, -32
	.cfi_offset s3, -40
	.cfi_offset s4, -48
	.cfi_offset s5, -56
	.cfi_offset s6, -64
	.cfi_offset s7, -72
	.cfi_offset s8, -80
	.cfi_offset s9, -88
	.cfi_offset s10, -96
	.cfi_offset s11, -104
	.cfi_remember_state
	mv	s6, a0
	sh	zero, 40(sp)
	sd	zero, 8(sp)
	sd	zero, 16(sp)
	sd	zero, 24(sp)
	sd	zero, 32(sp)
	beqz	a6, .Lnoise_BB45_7
	lbu	s7, 0(a5)
	li	a0, 1
	bge	a0, s7, .Lnoise_BB45_8
	addi	a0, s7, -2
	li	s1, 4
	bgeu	a0, s1, .Lnoise_BB45_23
	lbu	a0, 32(a2)
	beqz	a0, .Lnoise_BB45_10
	andi	a0, s7, 254
	li	s1, 4
	bne	a0, s1, .Lnoise_BB45_14
	lbu	a0, 33(a1)
	li	s1, 1
	bne	a0, s1, .Lnoise_BB45_24
	mv	s2, a5
	mv	s4, a6
	mv	s3, a3
	mv	s5, a4
	lbu	a6, 58(a1)
	lbu	a3, 59(a1)
	lbu	a4, 60(a1)
	lbu	a5, 61(a1)
	lbu	a7, 62(a1)
	lbu	t0, 63(a1)
	lbu	t1, 64(a1)
	lbu	t2, 65(a1)
	lbu	t3, 50(a1)
	lbu	s10, 51(a1)
	lbu	a0, 52(a1)
	lbu	s1, 53(a1)
	lbu	t4, 54(a1)
	lbu	t5, 55(a1)
	lbu	t6, 56(a1)
	lbu	s8, 57(a1)
	slli	a3, a3, 8
	slli	a4, a4, 16
	slli	a5, a5, 24
	or	a6, a3, a6
	or	s9, a5, a4
	lbu	s11, 42(a1)
	lbu	a4, 43(a1)
	lbu	a5, 44(a1)
	lbu	s0, 45(a1)
	slli	t0, t0, 8
	slli	t1, t1, 16
	slli	t2, t2, 24
	slli	s10, s10, 8
	slli	a3, a0, 16
	slli	a0, s1, 24
	or	a7, t0, a7
	or	t1, t2, t1
	or	t0, s10, t3
	or	t2, a0, a3
	lbu	t3, 46(a1)
	lbu	s10, 47(a1)
	lbu	a0, 48(a1)
	lbu	a3, 49(a1)
	slli	t5, t5, 8
	slli	t6, t6, 16
	slli	s8, s8, 24
	slli	a4, a4, 8
	slli	a5, a5, 16
	slli	s0, s0, 24
	or	t4, t5, t4
	or	t5, s8, t6
	or	t6, a4, s11
	or	s8, s0, a5
	lbu	s0, 34(a1)
	lbu	a4, 35(a1)
	lbu	a5, 36(a1)
	lbu	s1, 37(a1)
	slli	s10, s10, 8
	slli	a0, a0, 16
	slli	a3, a3, 24
	slli	a4, a4, 8
	slli	a5, a5, 16
	slli	s1, s1, 24
	or	t3, s10, t3
	or	s10, a3, a0
	or	s11, a4, s0
	or	ra, s1, a5
	lbu	a3, 39(a1)
	lbu	s0, 38(a1)
	lbu	s1, 40(a1)
	lbu	a0, 41(a1)
	j	.Lnoise_BB45_16
.Lnoise_BB45_7:
	li	a2, 34
	mv	a0, s6
	li	a1, 0
	ld	ra, 216(sp)
	ld	s0, 208(sp)
	ld	s1, 200(sp)
	ld	s2, 192(sp)
	ld	s3, 184(sp)
	ld	s4, 176(sp)
	ld	s5, 168(sp)
	ld	s6, 160(sp)
	ld	s7, 152(sp)
	ld	s8, 144(sp)
	ld	s9, 136(sp)
	ld	s10, 128(sp)
	ld	s11, 120(sp)
	.cfi_restore ra
	.cfi_restore s0
	.cfi_restore s1
	.cfi_restore s2
	.cfi_restore s3
	.cfi_restore s4
	.cfi_restore s5
	.cfi_restore s6
	.cfi_restore s7
	.cfi_restore s8
	.cfi_restore s9
	.cfi_restore s10
	.cfi_restore s11
	addi	sp, sp, 224
	.cfi_def_cfa_offset 0
	tail	memset
.Lnoise_BB45_8:
	.cfi_restore_state
	bnez	s7, .Lnoise_BB45_17
	ld	a0, 0(a2)
	lbu	a0, 0(a0)
	bnez	a0, .Lnoise_BB45_23
	j	.Lnoise_BB45_24
.Lnoise_BB45_10:
	li	a0, 3
	blt	a0, s7, .Lnoise_BB45_18
	li	a0, 2
	beq	s7, a0, .Lnoise_BB45_19
.Lnoise_BB45_12:
	lbu	a0, 33(a1)
	li	s1, 1
	bne	a0, s1, .Lnoise_BB45_24
	mv	s2, a5
	mv	s4, a6
	mv	s3, a3
	mv	s5, a4
	lbu	a6, 58(a1)
	lbu	a3, 59(a1)
	lbu	a4, 60(a1)
	lbu	a5, 61(a1)
	lbu	a7, 62(a1)
	lbu	t0, 63(a1)
	lbu	t1, 64(a1)
	lbu	t2, 65(a1)
	lbu	t3, 50(a1)
	lbu	s10, 51(a1)
	lbu	a0, 52(a1)
	lbu	s1, 53(a1)
	lbu	t4, 54(a1)
	lbu	t5, 55(a1)
	lbu	t6, 56(a1)
	lbu	s8, 57(a1)
	slli	a3, a3, 8
	slli	a4, a4, 16
	slli	a5, a5, 24
	or	a6, a3, a6
	or	s9, a5, a4
	lbu	s11, 42(a1)
	lbu	a4, 43(a1)
	lbu	a5, 44(a1)
	lbu	s0, 45(a1)
	slli	t0, t0, 8
	slli	t1, t1, 16
	slli	t2, t2, 24
	slli	s10, s10, 8
	slli	a3, a0, 16
	slli	a0, s1, 24
	or	a7, t0, a7
	or	t1, t2, t1
	or	t0, s10, t3
	or	t2, a0, a3
	lbu	t3, 46(a1)
	lbu	s10, 47(a1)
	lbu	a0, 48(a1)
	lbu	a3, 49(a1)
	slli	t5, t5, 8
	slli	t6, t6, 16
	slli	s8, s8, 24
	slli	a4, a4, 8
	slli	a5, a5, 16
	slli	s0, s0, 24
	or	t4, t5, t4
	or	t5, s8, t6
	or	t6, a4, s11
	or	s8, s0, a5
	lbu	s0, 34(a1)
	lbu	a4, 35(a1)
	lbu	a5, 36(a1)
	lbu	s1, 37(a1)
	slli	s10, s10, 8
	slli	a0, a0, 16
	slli	a3, a3, 24
	slli	a4, a4, 8
	slli	a5, a5, 16
	slli	s1, s1, 24
	or	t3, s10, t3
	or	s10, a3, a0
	or	s11, a4, s0
	or	ra, s1, a5
	lbu	a3, 39(a1)
	lbu	s0, 38(a1)
	lbu	s1, 40(a1)
	lbu	a0, 41(a1)
	j	.Lnoise_BB45_21
.Lnoise_BB45_14:
	lbu	a0, 0(a1)
	li	s1, 1
	bne	a0, s1, .Lnoise_BB45_24
	mv	s2, a5
	mv	s4, a6
	mv	s3, a3
	mv	s5, a4
	lbu	a6, 25(a1)
	lbu	a3, 26(a1)
	lbu	a4, 27(a1)
	lbu	a5, 28(a1)
	lbu	a7, 29(a1)
	lbu	t0, 30(a1)
	lbu	t1, 31(a1)
	lbu	t2, 32(a1)
	lbu	t3, 17(a1)
	lbu	s10, 18(a1)
	lbu	a0, 19(a1)
	lbu	s1, 20(a1)
	lbu	t4, 21(a1)
	lbu	t5, 22(a1)
	lbu	t6, 23(a1)
	lbu	s8, 24(a1)
	slli	a3, a3, 8
	slli	a4, a4, 16
	slli	a5, a5, 24
	or	a6, a3, a6
	or	s9, a5, a4
	lbu	s11, 9(a1)
	lbu	a4, 10(a1)
	lbu	a5, 11(a1)
	lbu	s0, 12(a1)
	slli	t0, t0, 8
	slli	t1, t1, 16
	slli	t2, t2, 24
	slli	s10, s10, 8
	slli	a3, a0, 16
	slli	a0, s1, 24
	or	a7, t0, a7
	or	t1, t2, t1
	or	t0, s10, t3
	or	t2, a0, a3
	lbu	t3, 13(a1)
	lbu	s10, 14(a1)
	lbu	a0, 15(a1)
	lbu	a3, 16(a1)
	slli	t5, t5, 8
	slli	t6, t6, 16
	slli	s8, s8, 24
	slli	a4, a4, 8
	slli	a5, a5, 16
	slli	s0, s0, 24
	or	t4, t5, t4
	or	t5, s8, t6
	or	t6, a4, s11
	or	s8, s0, a5
	lbu	s0, 1(a1)
	lbu	a4, 2(a1)
	lbu	a5, 3(a1)
	lbu	s1, 4(a1)
	slli	s10, s10, 8
	slli	a0, a0, 16
	slli	a3, a3, 24
	slli	a4, a4, 8
	slli	a5, a5, 16
	slli	s1, s1, 24
	or	t3, s10, t3
	or	s10, a3, a0
	or	s11, a4, s0
	or	ra, s1, a5
	lbu	a3, 6(a1)
	lbu	s0, 5(a1)
	lbu	s1, 7(a1)
	lbu	a0, 8(a1)
.Lnoise_BB45_16:
	slli	a3, a3, 8
	or	a3, a3, s0
	slli	s1, s1, 16
	slli	a0, a0, 24
	or	a0, a0, s1
	or	s1, s9, a6
	or	s0, t1, a7
	or	a7, t2, t0
	or	a5, t5, t4
	or	a6, s8, t6
	or	a4, s10, t3
	or	t0, ra, s11
	or	a0, a0, a3
	slli	s0, s0, 32
	or	s0, s0, s1
	slli	a5, a5, 32
	or	a3, a5, a7
	slli	a4, a4, 32
	or	a4, a4, a6
	slli	a0, a0, 32
	or	a0, a0, t0
	sd	a0, 48(sp)
	sd	a4, 56(sp)
	sd	a3, 64(sp)
	sd	s0, 72(sp)
	mv	s8, a1
	slli	a0, s7, 3
	lui	a1, 4096
	addi	a0, a0, -16
	addi	a1, a1, 256
	srlw	a3, a1, a0
	j	.Lnoise_BB45_22
.Lnoise_BB45_17:
	ld	a0, 8(a2)
	lbu	a0, 0(a0)
	bnez	a0, .Lnoise_BB45_23
	j	.Lnoise_BB45_24
.Lnoise_BB45_18:
	li	a0, 4
	bne	s7, a0, .Lnoise_BB45_12
.Lnoise_BB45_19:
	lbu	a0, 0(a1)
	li	s1, 1
	bne	a0, s1, .Lnoise_BB45_24
	mv	s2, a5
	mv	s4, a6
	mv	s3, a3
	mv	s5, a4
	lbu	a6, 25(a1)
	lbu	a3, 26(a1)
	lbu	a4, 27(a1)
	lbu	a5, 28(a1)
	lbu	a7, 29(a1)
	lbu	t0, 30(a1)
	lbu	t1, 31(a1)
	lbu	t2, 32(a1)
	lbu	t3, 17(a1)
	lbu	s10, 18(a1)
	lbu	a0, 19(a1)
	lbu	s1, 20(a1)
	lbu	t4, 21(a1)
	lbu	t5, 22(a1)
	lbu	t6, 23(a1)
	lbu	s8, 24(a1)
	slli	a3, a3, 8
	slli	a4, a4, 16
	slli	a5, a5, 24
	or	a6, a3, a6
	or	s9, a5, a4
	lbu	s11, 9(a1)
	lbu	a4, 10(a1)
	lbu	a5, 11(a1)
	lbu	s0, 12(a1)
	slli	t0, t0, 8
	slli	t1, t1, 16
	slli	t2, t2, 24
	slli	s10, s10, 8
	slli	a3, a0, 16
	slli	a0, s1, 24
	or	a7, t0, a7
	or	t1, t2, t1
	or	t0, s10, t3
	or	t2, a0, a3
	lbu	t3, 13(a1)
	lbu	s10, 14(a1)
	lbu	a0, 15(a1)
	lbu	a3, 16(a1)
	slli	t5, t5, 8
	slli	t6, t6, 16
	slli	s8, s8, 24
	slli	a4, a4, 8
	slli	a5, a5, 16
	slli	s0, s0, 24
	or	t4, t5, t4
	or	t5, s8, t6
	or	t6, a4, s11
	or	s8, s0, a5
	lbu	s0, 1(a1)
	lbu	a4, 2(a1)
	lbu	a5, 3(a1)
	lbu	s1, 4(a1)
	slli	s10, s10, 8
	slli	a0, a0, 16
	slli	a3, a3, 24
	slli	a4, a4, 8
	slli	a5, a5, 16
	slli	s1, s1, 24
	or	t3, s10, t3
	or	s10, a3, a0
	or	s11, a4, s0
	or	ra, s1, a5
	lbu	a3, 6(a1)
	lbu	s0, 5(a1)
	lbu	s1, 7(a1)
	lbu	a0, 8(a1)
.Lnoise_BB45_21:
	slli	a3, a3, 8
	or	a3, a3, s0
	slli	s1, s1, 16
	slli	a0, a0, 24
	or	a0, a0, s1
	or	s1, s9, a6
	or	s0, t1, a7
	or	a7, t2, t0
	or	a5, t5, t4
	or	a6, s8, t6
	or	a4, s10, t3
	or	t0, ra, s11
	or	a0, a0, a3
	slli	s0, s0, 32
	or	s0, s0, s1
	slli	a5, a5, 32
	or	a3, a5, a7
	slli	a4, a4, 32
	or	a4, a4, a6
	slli	a0, a0, 32
	or	a0, a0, t0
	sd	a0, 48(sp)
	sd	a4, 56(sp)
	sd	a3, 64(sp)
	sd	s0, 72(sp)
	mv	s8, a1
	andi	a0, s7, 254
	addi	a0, a0, -4
	seqz	a3, a0
.Lnoise_BB45_22:
	lbu	a0, 16(a2)
	lbu	a1, 17(a2)
	lbu	a4, 18(a2)
	lbu	a5, 19(a2)
	lbu	a6, 20(a2)
	lbu	a7, 21(a2)
	lbu	s1, 22(a2)
	lbu	s0, 23(a2)
	slli	a1, a1, 8
	slli	a4, a4, 16
	slli	a5, a5, 24
	or	t0, a1, a0
	or	t1, a5, a4
	lbu	a1, 24(a2)
	lbu	a5, 25(a2)
	lbu	a0, 26(a2)
	lbu	a4, 27(a2)
	slli	a7, a7, 8
	slli	s1, s1, 16
	slli	s0, s0, 24
	slli	a5, a5, 8
	slli	a0, a0, 16
	slli	a4, a4, 24
	or	a6, a7, a6
	or	s0, s0, s1
	or	a7, a5, a1
	or	a0, a0, a4
	lbu	a4, 29(a2)
	lbu	a5, 28(a2)
	lbu	s1, 30(a2)
	lbu	a1, 31(a2)
	slli	a4, a4, 8
	or	a4, a4, a5
	slli	s1, s1, 16
	slli	a1, a1, 24
	or	a1, a1, s1
	or	a5, t1, t0
	or	s1, s0, a6
	or	a0, a0, a7
	or	a1, a1, a4
	slli	s1, s1, 32
	slli	a4, a1, 32
	or	a1, s1, a5
	or	a5, a4, a0
	addi	a0, sp, 80
	addi	a4, sp, 48
	mv	s1, a2
	mv	a2, a5
	call	noise_noise_c_supplied_keys_result_for
	mv	a2, s1
	lbu	a0, 80(sp)
	li	s1, 1
	mv	a1, s8
	mv	a4, s5
	mv	a3, s3
	mv	a6, s4
	mv	a5, s2
	bne	a0, s1, .Lnoise_BB45_24
.Lnoise_BB45_23:
	addi	a5, a5, 4
	addi	a6, a6, -1
	addi	s7, s7, -6
	seqz	s1, s7
	slli	a0, s1, 5
	add	a3, a3, a0
	sub	a4, a4, s1
	addi	a0, sp, 8
	call	noise_noise_handshake_writer_write_lacking_9bbb2dae5a99aff0
	lbu	a0, 8(sp)
	j	.Lnoise_BB45_37
.Lnoise_BB45_24:
	lbu	a0, 32(a2)
	beqz	a0, .Lnoise_BB45_27
	andi	a0, s7, 254
	li	a2, 4
	bne	a0, a2, .Lnoise_BB45_29
	lbu	a6, 33(a1)
	lbu	a2, 34(a1)
	lbu	a3, 35(a1)
	lbu	t0, 36(a1)
	lbu	t1, 37(a1)
	lbu	a7, 38(a1)
	lbu	t5, 39(a1)
	lbu	t6, 40(a1)
	lbu	s1, 41(a1)
	lbu	s5, 42(a1)
	lbu	a5, 43(a1)
	lbu	t2, 44(a1)
	lbu	t3, 45(a1)
	lbu	t4, 46(a1)
	lbu	s3, 47(a1)
	lbu	s8, 48(a1)
	slli	a3, a3, 8
	or	s2, a3, a2
	lbu	a2, 49(a1)
	lbu	a3, 50(a1)
	lbu	s0, 51(a1)
	lbu	s4, 52(a1)
	slli	t0, t0, 16
	slli	t1, t1, 24
	slli	t5, t5, 8
	slli	t6, t6, 16
	slli	s1, s1, 24
	slli	a4, a5, 8
	or	t0, t1, t0
	or	a7, t5, a7
	or	t5, s1, t6
	or	t1, a4, s5
	lbu	s1, 53(a1)
	lbu	s5, 54(a1)
	lbu	a5, 55(a1)
	lbu	a0, 56(a1)
	slli	t2, t2, 16
	slli	t3, t3, 24
	slli	s3, s3, 8
	slli	s8, s8, 16
	slli	a2, a2, 24
	slli	s0, s0, 8
	or	t2, t3, t2
	or	t3, s3, t4
	or	t4, a2, s8
	or	t6, s0, a3
	lbu	s0, 57(a1)
	lbu	a2, 58(a1)
	lbu	a3, 59(a1)
	lbu	a4, 60(a1)
	slli	s4, s4, 16
	slli	s1, s1, 24
	slli	a5, a5, 8
	slli	a0, a0, 16
	slli	s0, s0, 24
	slli	a3, a3, 8
	or	s4, s1, s4
	or	s3, a5, s5
	or	s5, s0, a0
	or	s8, a3, a2
	lbu	a3, 61(a1)
	lbu	s0, 62(a1)
	lbu	a5, 63(a1)
	lbu	s1, 64(a1)
	slli	a4, a4, 16
	slli	a3, a3, 24
	or	s9, a3, a4
	lbu	a1, 65(a1)
	j	.Lnoise_BB45_30
.Lnoise_BB45_27:
	li	a0, 23
	srl	a0, a0, s7
	andi	a0, a0, 1
	beqz	a0, .Lnoise_BB45_32
	lbu	a6, 0(a1)
	lbu	a2, 1(a1)
	lbu	a3, 2(a1)
	lbu	t0, 3(a1)
	lbu	t1, 4(a1)
	lbu	a7, 5(a1)
	lbu	t5, 6(a1)
	lbu	t6, 7(a1)
	lbu	s1, 8(a1)
	lbu	s5, 9(a1)
	lbu	a5, 10(a1)
	lbu	t2, 11(a1)
	lbu	t3, 12(a1)
	lbu	t4, 13(a1)
	lbu	s3, 14(a1)
	lbu	s8, 15(a1)
	slli	a3, a3, 8
	or	s2, a3, a2
	lbu	a2, 16(a1)
	lbu	a3, 17(a1)
	lbu	s0, 18(a1)
	lbu	s4, 19(a1)
	slli	t0, t0, 16
	slli	t1, t1, 24
	slli	t5, t5, 8
	slli	t6, t6, 16
	slli	s1, s1, 24
	slli	a4, a5, 8
	or	t0, t1, t0
	or	a7, t5, a7
	or	t5, s1, t6
	or	t1, a4, s5
	lbu	s1, 20(a1)
	lbu	s5, 21(a1)
	lbu	a5, 22(a1)
	lbu	a0, 23(a1)
	slli	t2, t2, 16
	slli	t3, t3, 24
	slli	s3, s3, 8
	slli	s8, s8, 16
	slli	a2, a2, 24
	slli	s0, s0, 8
	or	t2, t3, t2
	or	t3, s3, t4
	or	t4, a2, s8
	or	t6, s0, a3
	lbu	s0, 24(a1)
	lbu	a2, 25(a1)
	lbu	a3, 26(a1)
	lbu	a4, 27(a1)
	slli	s4, s4, 16
	slli	s1, s1, 24
	slli	a5, a5, 8
	slli	a0, a0, 16
	slli	s0, s0, 24
	slli	a3, a3, 8
	or	s4, s1, s4
	or	s3, a5, s5
	or	s5, s0, a0
	or	s8, a3, a2
	lbu	a3, 28(a1)
	lbu	s0, 29(a1)
	lbu	a5, 30(a1)
	lbu	s1, 31(a1)
	slli	a4, a4, 16
	slli	a3, a3, 24
	or	s9, a3, a4
	lbu	a1, 32(a1)
	j	.Lnoise_BB45_33
.Lnoise_BB45_29:
	lbu	a6, 0(a1)
	lbu	a2, 1(a1)
	lbu	a3, 2(a1)
	lbu	t0, 3(a1)
	lbu	t1, 4(a1)
	lbu	a7, 5(a1)
	lbu	t5, 6(a1)
	lbu	t6, 7(a1)
	lbu	s1, 8(a1)
	lbu	s5, 9(a1)
	lbu	a5, 10(a1)
	lbu	t2, 11(a1)
	lbu	t3, 12(a1)
	lbu	t4, 13(a1)
	lbu	s3, 14(a1)
	lbu	s8, 15(a1)
	slli	a3, a3, 8
	or	s2, a3, a2
	lbu	a2, 16(a1)
	lbu	a3, 17(a1)
	lbu	s0, 18(a1)
	lbu	s4, 19(a1)
	slli	t0, t0, 16
	slli	t1, t1, 24
	slli	t5, t5, 8
	slli	t6, t6, 16
	slli	s1, s1, 24
	slli	a4, a5, 8
	or	t0, t1, t0
	or	a7, t5, a7
	or	t5, s1, t6
	or	t1, a4, s5
	lbu	s1, 20(a1)
	lbu	s5, 21(a1)
	lbu	a5, 22(a1)
	lbu	a0, 23(a1)
	slli	t2, t2, 16
	slli	t3, t3, 24
	slli	s3, s3, 8
	slli	s8, s8, 16
	slli	a2, a2, 24
	slli	s0, s0, 8
	or	t2, t3, t2
	or	t3, s3, t4
	or	t4, a2, s8
	or	t6, s0, a3
	lbu	s0, 24(a1)
	lbu	a2, 25(a1)
	lbu	a3, 26(a1)
	lbu	a4, 27(a1)
	slli	s4, s4, 16
	slli	s1, s1, 24
	slli	a5, a5, 8
	slli	a0, a0, 16
	slli	s0, s0, 24
	slli	a3, a3, 8
	or	s4, s1, s4
	or	s3, a5, s5
	or	s5, s0, a0
	or	s8, a3, a2
	lbu	a3, 28(a1)
	lbu	s0, 29(a1)
	lbu	a5, 30(a1)
	lbu	s1, 31(a1)
	slli	a4, a4, 16
	slli	a3, a3, 24
	or	s9, a3, a4
	lbu	a1, 32(a1)
.Lnoise_BB45_30:
	slli	a5, a5, 8
	or	s10, a5, s0
	slli	s1, s1, 16
	slli	a1, a1, 24
	or	a1, a1, s1
	or	a4, t0, s2
	or	s1, t5, a7
	or	s0, t2, t1
	or	a0, t4, t3
	or	a2, s4, t6
	or	a3, s5, s3
	or	a5, s9, s8
	or	a1, a1, s10
	slli	s1, s1, 32
	or	a4, a4, s1
	slli	a0, a0, 32
	or	a0, a0, s0
	slli	a3, a3, 32
	or	a2, a2, a3
	slli	a1, a1, 32
	or	a1, a1, a5
	li	a3, 1
	sd	a4, 80(sp)
	sd	a0, 88(sp)
	sd	a2, 96(sp)
	sd	a1, 104(sp)
	bne	a6, a3, .Lnoise_BB45_36
	slli	s7, s7, 3
	lui	a0, 65537
	slli	a0, a0, 12
	srl	a0, a0, s7
	j	.Lnoise_BB45_35
.Lnoise_BB45_32:
	lbu	a6, 33(a1)
	lbu	a2, 34(a1)
	lbu	a3, 35(a1)
	lbu	t0, 36(a1)
	lbu	t1, 37(a1)
	lbu	a7, 38(a1)
	lbu	t5, 39(a1)
	lbu	t6, 40(a1)
	lbu	s1, 41(a1)
	lbu	s5, 42(a1)
	lbu	a5, 43(a1)
	lbu	t2, 44(a1)
	lbu	t3, 45(a1)
	lbu	t4, 46(a1)
	lbu	s3, 47(a1)
	lbu	s8, 48(a1)
	slli	a3, a3, 8
	or	s2, a3, a2
	lbu	a2, 49(a1)
	lbu	a3, 50(a1)
	lbu	s0, 51(a1)
	lbu	s4, 52(a1)
	slli	t0, t0, 16
	slli	t1, t1, 24
	slli	t5, t5, 8
	slli	t6, t6, 16
	slli	s1, s1, 24
	slli	a4, a5, 8
	or	t0, t1, t0
	or	a7, t5, a7
	or	t5, s1, t6
	or	t1, a4, s5
	lbu	s1, 53(a1)
	lbu	s5, 54(a1)
	lbu	a5, 55(a1)
	lbu	a0, 56(a1)
	slli	t2, t2, 16
	slli	t3, t3, 24
	slli	s3, s3, 8
	slli	s8, s8, 16
	slli	a2, a2, 24
	slli	s0, s0, 8
	or	t2, t3, t2
	or	t3, s3, t4
	or	t4, a2, s8
	or	t6, s0, a3
	lbu	s0, 57(a1)
	lbu	a2, 58(a1)
	lbu	a3, 59(a1)
	lbu	a4, 60(a1)
	slli	s4, s4, 16
	slli	s1, s1, 24
	slli	a5, a5, 8
	slli	a0, a0, 16
	slli	s0, s0, 24
	slli	a3, a3, 8
	or	s4, s1, s4
	or	s3, a5, s5
	or	s5, s0, a0
	or	s8, a3, a2
	lbu	a3, 61(a1)
	lbu	s0, 62(a1)
	lbu	a5, 63(a1)
	lbu	s1, 64(a1)
	slli	a4, a4, 16
	slli	a3, a3, 24
	or	s9, a3, a4
	lbu	a1, 65(a1)
.Lnoise_BB45_33:
	slli	a5, a5, 8
	or	s10, a5, s0
	slli	s1, s1, 16
	slli	a1, a1, 24
	or	a1, a1, s1
	or	a4, t0, s2
	or	s1, t5, a7
	or	s0, t2, t1
	or	a0, t4, t3
	or	a2, s4, t6
	or	a3, s5, s3
	or	a5, s9, s8
	or	a1, a1, s10
	slli	s1, s1, 32
	or	a4, a4, s1
	slli	a0, a0, 32
	or	a0, a0, s0
	slli	a3, a3, 32
	or	a2, a2, a3
	slli	a1, a1, 32
	or	a1, a1, a5
	li	a3, 1
	sd	a4, 80(sp)
	sd	a0, 88(sp)
	sd	a2, 96(sp)
	sd	a1, 104(sp)
	bne	a6, a3, .Lnoise_BB45_36
	andi	a0, s7, 254
	addi	a0, a0, -4
	seqz	a0, a0
.Lnoise_BB45_35:
	sb	a0, 9(sp)
	addi	a0, sp, 10
	addi	a1, sp, 80
	li	a2, 32
	call	memcpy
	li	a0, 1
	j	.Lnoise_BB45_37
.Lnoise_BB45_36:
	li	a0, 0
	sh	zero, 40(sp)
	sd	zero, 8(sp)
	sd	zero, 16(sp)
	sd	zero, 24(sp)
	sd	zero, 32(sp)
.Lnoise_BB45_37:
	addi	a1, sp, 9
	sb	a0, 0(s6)
	addi	a0, s6, 1
	li	a2, 33
	call	memcpy
	ld	ra, 216(sp)
	ld	s0, 208(sp)
	ld	s1, 200(sp)
	ld	s2, 192(sp)
	ld	s3, 184(sp)
	ld	s4, 176(sp)
	ld	s5, 168(sp)
	ld	s6, 160(sp)
	ld	s7, 152(sp)
	ld	s8, 144(sp)
	ld	s9, 136(sp)
	ld	s10, 128(sp)
	ld	s11, 120(sp)
	.cfi_restore ra
	.cfi_restore s0
	.cfi_restore s1
	.cfi_restore s2
	.cfi_restore s3
	.cfi_restore s4
	.cfi_restore s5
	.cfi_restore s6
	.cfi_restore s7
	.cfi_restore s8
	.cfi_restore s9
	.cfi_restore s10
	.cfi_restore s11
	addi	sp, sp, 224
	.cfi_def_cfa_offset 0
	ret
.Lnoise_func_end45:
	.size	noise_noise_handshake_writer_write_lacking_9bbb2dae5a99aff0, .Lnoise_func_end45-noise_noise_handshake_writer_write_lacking_9bbb2dae5a99aff0
	.cfi_endproc

	.section	".text.noise_handshake::writer::write_tokens::<#3dfcfe118667ed30>","ax",@progbits
	.p2align	1
	.type	noise_noise_handshake_writer_write_tokens_3dfcfe118667ed30,@function
noise_noise_handshake_writer_write_tokens_3dfcfe118667ed30:
	.cfi_startproc
	addi	sp, sp, -800
	.cfi_def_cfa_offset 800
	sd	ra, 792(sp)
	sd	s0, 784(sp)
	sd	s1, 776(sp)
	sd	s2, 768(sp)
	sd	s3, 760(sp)
	sd	s4, 752(sp)
	sd	s5, 744(sp)
	sd	s6, 736(sp)
	sd	s7, 728(sp)
	sd	s8, 720(sp)
	sd	s9, 712(sp)
	sd	s10, 704(sp)
	sd	s11, 696(sp)
	.cfi_offset ra, -8
	.cfi_offset s0, -16
	.cfi_offset s1, -24
	.cfi_offset s2, -32
	.cfi_offset s3, -40
	.cfi_offset s4, -48
	.cfi_offset s5, -56
	.cfi_offset s6, -64
	.cfi_offset s7, -72
	.cfi_offset s8, -80
	.cfi_offset s9, -88
	.cfi_offset s10, -96
	.cfi_offset s11, -104
	.cfi_remember_state
	beqz	a6, .Lnoise_BB46_7
	mv	s2, t3
	mv	s9, a7
	mv	s5, a6
	mv	s6, a5
	mv	s3, a4
	mv	s4, a3
	mv	s8, a0
	lbu	a0, 0(a5)
	li	a3, 1
	bge	a3, a0, .Lnoise_BB46_8
	addi	a3, a0, -2
	li	a4, 4
	bgeu	a3, a4, .Lnoise_BB46_22
	lbu	a3, 32(a2)
	beqz	a3, .Lnoise_BB46_12
	andi	a3, a0, 254
	li	a4, 4
	bne	a3, a4, .Lnoise_BB46_16
	lbu	a3, 33(a1)
	li	a4, 1
	bne	a3, a4, .Lnoise_BB46_29
	lbu	a6, 58(a1)
	lbu	t4, 59(a1)
	lbu	a5, 60(a1)
	lbu	s1, 61(a1)
	lbu	a7, 62(a1)
	lbu	t0, 63(a1)
	lbu	t1, 64(a1)
	lbu	t2, 65(a1)
	lbu	t3, 50(a1)
	lbu	s11, 51(a1)
	lbu	s0, 52(a1)
	lbu	a4, 53(a1)
	lbu	t5, 54(a1)
	lbu	t6, 55(a1)
	lbu	s7, 56(a1)
	lbu	s10, 57(a1)
	slli	t4, t4, 8
	slli	a5, a5, 16
	slli	s1, s1, 24
	or	a6, t4, a6
	or	t4, s1, a5
	lbu	ra, 42(a1)
	lbu	s1, 43(a1)
	lbu	a3, 44(a1)
	lbu	a5, 45(a1)
	slli	t0, t0, 8
	slli	t1, t1, 16
	slli	t2, t2, 24
	slli	s11, s11, 8
	slli	s0, s0, 16
	slli	a4, a4, 24
	or	a7, t0, a7
	or	t0, t2, t1
	or	t1, s11, t3
	or	t2, a4, s0
	lbu	t3, 46(a1)
	lbu	s11, 47(a1)
	lbu	s0, 48(a1)
	lbu	a4, 49(a1)
	slli	t6, t6, 8
	slli	s7, s7, 16
	slli	s10, s10, 24
	slli	s1, s1, 8
	slli	a3, a3, 16
	slli	a5, a5, 24
	or	t5, t6, t5
	or	t6, s10, s7
	or	s7, s1, ra
	or	s10, a5, a3
	lbu	ra, 34(a1)
	lbu	s1, 35(a1)
	lbu	a3, 36(a1)
	lbu	a5, 37(a1)
	slli	s11, s11, 8
	slli	s0, s0, 16
	slli	a4, a4, 24
	slli	s1, s1, 8
	slli	a3, a3, 16
	slli	a5, a5, 24
	or	t3, s11, t3
	or	s11, a4, s0
	or	ra, s1, ra
	or	a3, a3, a5
	lbu	a5, 39(a1)
	lbu	s1, 38(a1)
	lbu	a4, 40(a1)
	lbu	s0, 41(a1)
	j	.Lnoise_BB46_18
.Lnoise_BB46_7:
	li	a1, 0
	li	a0, 0
	j	.Lnoise_BB46_36
.Lnoise_BB46_8:
	mv	s10, a1
	bnez	a0, .Lnoise_BB46_19
	ld	a0, 0(a2)
	lbu	a1, 0(a0)
	beqz	a1, .Lnoise_BB46_37
	lbu	a1, 26(a0)
	lbu	a3, 25(a0)
	lbu	a4, 27(a0)
	lbu	a5, 28(a0)
	slli	a1, a1, 8
	or	a6, a1, a3
	lbu	a3, 29(a0)
	lbu	s1, 30(a0)
	lbu	s0, 31(a0)
	lbu	a1, 32(a0)
	slli	a4, a4, 16
	slli	a5, a5, 24
	slli	s1, s1, 8
	slli	s0, s0, 16
	slli	a1, a1, 24
	or	a4, a4, a5
	or	a3, a3, s1
	or	a1, a1, s0
	or	a4, a4, a6
	or	a1, a1, a3
	slli	a1, a1, 32
	or	a1, a1, a4
	sd	a1, 96(sp)
	lbu	a1, 18(a0)
	lbu	a3, 17(a0)
	lbu	a4, 19(a0)
	lbu	a5, 20(a0)
	slli	a1, a1, 8
	or	a6, a1, a3
	lbu	a3, 21(a0)
	lbu	s1, 22(a0)
	lbu	s0, 23(a0)
	lbu	a1, 24(a0)
	slli	a4, a4, 16
	slli	a5, a5, 24
	or	a4, a4, a5
	slli	s1, s1, 8
	slli	s0, s0, 16
	slli	a1, a1, 24
	or	a3, a3, s1
	or	a1, a1, s0
	or	a4, a4, a6
	or	a1, a1, a3
	slli	a1, a1, 32
	or	a1, a1, a4
	sd	a1, 88(sp)
	lbu	a1, 10(a0)
	lbu	a3, 11(a0)
	lbu	a4, 12(a0)
	lbu	a5, 9(a0)
	slli	a1, a1, 8
	slli	a3, a3, 16
	slli	a4, a4, 24
	or	a1, a1, a5
	or	a3, a3, a4
	lbu	a4, 14(a0)
	lbu	a5, 13(a0)
	lbu	s1, 15(a0)
	lbu	s0, 16(a0)
	slli	a4, a4, 8
	or	a4, a4, a5
	slli	s1, s1, 16
	slli	s0, s0, 24
	or	s0, s0, s1
	or	a1, a1, a3
	or	a4, a4, s0
	slli	a4, a4, 32
	or	a1, a1, a4
	sd	a1, 80(sp)
	lbu	a1, 2(a0)
	lbu	a3, 3(a0)
	lbu	a4, 4(a0)
	lbu	a5, 1(a0)
	slli	a1, a1, 8
	slli	a3, a3, 16
	slli	a4, a4, 24
	or	a1, a1, a5
	or	a3, a3, a4
	lbu	a4, 6(a0)
	lbu	a5, 5(a0)
	lbu	s1, 7(a0)
	lbu	a0, 8(a0)
	slli	a4, a4, 8
	or	a4, a4, a5
	slli	s1, s1, 16
	slli	a0, a0, 24
	or	a0, a0, s1
	or	a3, a3, a1
	or	a0, a0, a4
	mv	s7, a2
	lbu	a1, 33(a2)
	slli	a0, a0, 32
	or	a0, a0, a3
	sd	a0, 72(sp)
	addi	a2, sp, 72
	addi	s0, sp, 72
	mv	a0, s8
	call	noise_noise_handshake_tokens_mix_ephemeral
	sub	a0, s9, s0
	li	a1, 31
	bltu	a1, a0, .Lnoise_BB46_30
	lbu	a0, 72(sp)
	lbu	a1, 73(sp)
	lbu	a2, 74(sp)
	lbu	a3, 75(sp)
	sb	a0, 0(s9)
	sb	a1, 1(s9)
	sb	a2, 2(s9)
	sb	a3, 3(s9)
	lbu	a0, 76(sp)
	lbu	a1, 77(sp)
	lbu	a2, 78(sp)
	lbu	a3, 79(sp)
	sb	a0, 4(s9)
	sb	a1, 5(s9)
	sb	a2, 6(s9)
	sb	a3, 7(s9)
	lbu	a0, 80(sp)
	lbu	a1, 81(sp)
	lbu	a2, 82(sp)
	lbu	a3, 83(sp)
	sb	a0, 8(s9)
	sb	a1, 9(s9)
	sb	a2, 10(s9)
	sb	a3, 11(s9)
	lbu	a0, 84(sp)
	lbu	a1, 85(sp)
	lbu	a2, 86(sp)
	lbu	a3, 87(sp)
	sb	a0, 12(s9)
	sb	a1, 13(s9)
	sb	a2, 14(s9)
	sb	a3, 15(s9)
	lbu	a0, 88(sp)
	lbu	a1, 89(sp)
	lbu	a2, 90(sp)
	lbu	a3, 91(sp)
	sb	a0, 16(s9)
	sb	a1, 17(s9)
	sb	a2, 18(s9)
	sb	a3, 19(s9)
	lbu	a0, 92(sp)
	lbu	a1, 93(sp)
	lbu	a2, 94(sp)
	lbu	a3, 95(sp)
	sb	a0, 20(s9)
	sb	a1, 21(s9)
	sb	a2, 22(s9)
	sb	a3, 23(s9)
	lbu	a0, 96(sp)
	lbu	a1, 97(sp)
	lbu	a2, 98(sp)
	lbu	a3, 99(sp)
	sb	a0, 24(s9)
	sb	a1, 25(s9)
	sb	a2, 26(s9)
	sb	a3, 27(s9)
	lbu	a0, 100(sp)
	lbu	a1, 101(sp)
	lbu	a2, 102(sp)
	lbu	a3, 103(sp)
	sb	a0, 28(s9)
	sb	a1, 29(s9)
	sb	a2, 30(s9)
	sb	a3, 31(s9)
	li	s1, 32
	j	.Lnoise_BB46_32
.Lnoise_BB46_12:
	li	a3, 3
	blt	a3, a0, .Lnoise_BB46_23
	li	a3, 2
	beq	a0, a3, .Lnoise_BB46_24
.Lnoise_BB46_14:
	lbu	a3, 33(a1)
	li	a4, 1
	bne	a3, a4, .Lnoise_BB46_29
	lbu	a6, 58(a1)
	lbu	t4, 59(a1)
	lbu	a5, 60(a1)
	lbu	s1, 61(a1)
	lbu	a7, 62(a1)
	lbu	t0, 63(a1)
	lbu	t1, 64(a1)
	lbu	t2, 65(a1)
	lbu	t3, 50(a1)
	lbu	s11, 51(a1)
	lbu	s0, 52(a1)
	lbu	a4, 53(a1)
	lbu	t5, 54(a1)
	lbu	t6, 55(a1)
	lbu	s7, 56(a1)
	lbu	s10, 57(a1)
	slli	t4, t4, 8
	slli	a5, a5, 16
	slli	s1, s1, 24
	or	a6, t4, a6
	or	t4, s1, a5
	lbu	ra, 42(a1)
	lbu	s1, 43(a1)
	lbu	a3, 44(a1)
	lbu	a5, 45(a1)
	slli	t0, t0, 8
	slli	t1, t1, 16
	slli	t2, t2, 24
	slli	s11, s11, 8
	slli	s0, s0, 16
	slli	a4, a4, 24
	or	a7, t0, a7
	or	t0, t2, t1
	or	t1, s11, t3
	or	t2, a4, s0
	lbu	t3, 46(a1)
	lbu	s11, 47(a1)
	lbu	s0, 48(a1)
	lbu	a4, 49(a1)
	slli	t6, t6, 8
	slli	s7, s7, 16
	slli	s10, s10, 24
	slli	s1, s1, 8
	slli	a3, a3, 16
	slli	a5, a5, 24
	or	t5, t6, t5
	or	t6, s10, s7
	or	s7, s1, ra
	or	s10, a5, a3
	lbu	ra, 34(a1)
	lbu	s1, 35(a1)
	lbu	a3, 36(a1)
	lbu	a5, 37(a1)
	slli	s11, s11, 8
	slli	s0, s0, 16
	slli	a4, a4, 24
	slli	s1, s1, 8
	slli	a3, a3, 16
	slli	a5, a5, 24
	or	t3, s11, t3
	or	s11, a4, s0
	or	ra, s1, ra
	or	a3, a3, a5
	lbu	a5, 39(a1)
	lbu	s1, 38(a1)
	lbu	a4, 40(a1)
	lbu	s0, 41(a1)
	j	.Lnoise_BB46_26
.Lnoise_BB46_16:
	lbu	a3, 0(a1)
	li	a4, 1
	bne	a3, a4, .Lnoise_BB46_29
	lbu	a6, 25(a1)
	lbu	t4, 26(a1)
	lbu	a5, 27(a1)
	lbu	s1, 28(a1)
	lbu	a7, 29(a1)
	lbu	t0, 30(a1)
	lbu	t1, 31(a1)
	lbu	t2, 32(a1)
	lbu	t3, 17(a1)
	lbu	s11, 18(a1)
	lbu	s0, 19(a1)
	lbu	a4, 20(a1)
	lbu	t5, 21(a1)
	lbu	t6, 22(a1)
	lbu	s7, 23(a1)
	lbu	s10, 24(a1)
	slli	t4, t4, 8
	slli	a5, a5, 16
	slli	s1, s1, 24
	or	a6, t4, a6
	or	t4, s1, a5
	lbu	ra, 9(a1)
	lbu	s1, 10(a1)
	lbu	a3, 11(a1)
	lbu	a5, 12(a1)
	slli	t0, t0, 8
	slli	t1, t1, 16
	slli	t2, t2, 24
	slli	s11, s11, 8
	slli	s0, s0, 16
	slli	a4, a4, 24
	or	a7, t0, a7
	or	t0, t2, t1
	or	t1, s11, t3
	or	t2, a4, s0
	lbu	t3, 13(a1)
	lbu	s11, 14(a1)
	lbu	s0, 15(a1)
	lbu	a4, 16(a1)
	slli	t6, t6, 8
	slli	s7, s7, 16
	slli	s10, s10, 24
	slli	s1, s1, 8
	slli	a3, a3, 16
	slli	a5, a5, 24
	or	t5, t6, t5
	or	t6, s10, s7
	or	s7, s1, ra
	or	s10, a5, a3
	lbu	ra, 1(a1)
	lbu	s1, 2(a1)
	lbu	a3, 3(a1)
	lbu	a5, 4(a1)
	slli	s11, s11, 8
	slli	s0, s0, 16
	slli	a4, a4, 24
	slli	s1, s1, 8
	slli	a3, a3, 16
	slli	a5, a5, 24
	or	t3, s11, t3
	or	s11, a4, s0
	or	ra, s1, ra
	or	a3, a3, a5
	lbu	a5, 6(a1)
	lbu	s1, 5(a1)
	lbu	a4, 7(a1)
	lbu	s0, 8(a1)
.Lnoise_BB46_18:
	slli	a5, a5, 8
	or	a5, a5, s1
	slli	a4, a4, 16
	slli	s0, s0, 24
	or	a4, a4, s0
	or	t4, t4, a6
	or	s0, t0, a7
	or	a6, t2, t1
	or	s1, t6, t5
	or	a7, s10, s7
	or	t0, s11, t3
	or	a3, a3, ra
	or	a4, a4, a5
	slli	s0, s0, 32
	or	a5, s0, t4
	slli	s1, s1, 32
	or	s1, s1, a6
	slli	t0, t0, 32
	or	s0, t0, a7
	slli	a4, a4, 32
	or	a3, a3, a4
	sd	a3, 120(sp)
	sd	s0, 128(sp)
	sd	s1, 136(sp)
	sd	a5, 144(sp)
	sd	a1, 0(sp)
	slli	a0, a0, 3
	lui	a1, 4096
	addi	a0, a0, -16
	addi	a1, a1, 256
	srlw	a3, a1, a0
	j	.Lnoise_BB46_27
.Lnoise_BB46_19:
	ld	a1, 8(a2)
	lbu	a0, 0(a1)
	beqz	a0, .Lnoise_BB46_37
	mv	s7, a2
	addi	a1, a1, 1
	li	a2, 32
	mv	a0, s9
	call	memmove
	addi	a1, s8, 64
	sd	zero, 120(sp)
	sd	zero, 128(sp)
	addi	s0, s8, 32
	addi	a0, sp, 120
	li	a3, 32
	li	a5, 32
	mv	a2, s0
	mv	a4, s9
	call	noise_noise_state_cipher_CipherState_encrypt
	lbu	a0, 120(sp)
	bnez	a0, .Lnoise_BB46_37
	ld	s1, 128(sp)
	addi	a0, sp, 328
	mv	a1, s0
	mv	a2, s9
	mv	a3, s1
	call	noise_noise_state_symmetric_hash_of_both
	addi	a1, sp, 328
	li	a2, 32
	mv	a0, s0
	j	.Lnoise_BB46_31
.Lnoise_BB46_22:
	mv	s7, a2
	mv	a0, s8
	mv	s0, a1
	mv	a1, s4
	call	noise_noise_state_symmetric_SymmetricState_mix_key_and_hash
	mv	a1, s0
	li	s1, 0
	j	.Lnoise_BB46_33
.Lnoise_BB46_23:
	li	a3, 4
	bne	a0, a3, .Lnoise_BB46_14
.Lnoise_BB46_24:
	lbu	a3, 0(a1)
	li	a4, 1
	bne	a3, a4, .Lnoise_BB46_29
	lbu	a6, 25(a1)
	lbu	t4, 26(a1)
	lbu	a5, 27(a1)
	lbu	s1, 28(a1)
	lbu	a7, 29(a1)
	lbu	t0, 30(a1)
	lbu	t1, 31(a1)
	lbu	t2, 32(a1)
	lbu	t3, 17(a1)
	lbu	s11, 18(a1)
	lbu	s0, 19(a1)
	lbu	a4, 20(a1)
	lbu	t5, 21(a1)
	lbu	t6, 22(a1)
	lbu	s7, 23(a1)
	lbu	s10, 24(a1)
	slli	t4, t4, 8
	slli	a5, a5, 16
	slli	s1, s1, 24
	or	a6, t4, a6
	or	t4, s1, a5
	lbu	ra, 9(a1)
	lbu	s1, 10(a1)
	lbu	a3, 11(a1)
	lbu	a5, 12(a1)
	slli	t0, t0, 8
	slli	t1, t1, 16
	slli	t2, t2, 24
	slli	s11, s11, 8
	slli	s0, s0, 16
	slli	a4, a4, 24
	or	a7, t0, a7
	or	t0, t2, t1
	or	t1, s11, t3
	or	t2, a4, s0
	lbu	t3, 13(a1)
	lbu	s11, 14(a1)
	lbu	s0, 15(a1)
	lbu	a4, 16(a1)
	slli	t6, t6, 8
	slli	s7, s7, 16
	slli	s10, s10, 24
	slli	s1, s1, 8
	slli	a3, a3, 16
	slli	a5, a5, 24
	or	t5, t6, t5
	or	t6, s10, s7
	or	s7, s1, ra
	or	s10, a5, a3
	lbu	ra, 1(a1)
	lbu	s1, 2(a1)
	lbu	a3, 3(a1)
	lbu	a5, 4(a1)
	slli	s11, s11, 8
	slli	s0, s0, 16
	slli	a4, a4, 24
	slli	s1, s1, 8
	slli	a3, a3, 16
	slli	a5, a5, 24
	or	t3, s11, t3
	or	s11, a4, s0
	or	ra, s1, ra
	or	a3, a3, a5
	lbu	a5, 6(a1)
	lbu	s1, 5(a1)
	lbu	a4, 7(a1)
	lbu	s0, 8(a1)
.Lnoise_BB46_26:
	slli	a5, a5, 8
	or	a5, a5, s1
	slli	a4, a4, 16
	slli	s0, s0, 24
	or	a4, a4, s0
	or	t4, t4, a6
	or	s0, t0, a7
	or	a6, t2, t1
	or	s1, t6, t5
	or	a7, s10, s7
	or	t0, s11, t3
	or	a3, a3, ra
	or	a4, a4, a5
	slli	s0, s0, 32
	or	a5, s0, t4
	slli	s1, s1, 32
	or	s1, s1, a6
	slli	t0, t0, 32
	or	s0, t0, a7
	slli	a4, a4, 32
	or	a3, a3, a4
	sd	a3, 120(sp)
	sd	s0, 128(sp)
	sd	s1, 136(sp)
	sd	a5, 144(sp)
	sd	a1, 0(sp)
	andi	a0, a0, 254
	addi	a0, a0, -4
	seqz	a3, a0
.Lnoise_BB46_27:
	lbu	a0, 16(a2)
	lbu	a1, 17(a2)
	lbu	a4, 18(a2)
	lbu	a5, 19(a2)
	lbu	a6, 20(a2)
	lbu	a7, 21(a2)
	lbu	s1, 22(a2)
	lbu	s0, 23(a2)
	slli	a1, a1, 8
	slli	a4, a4, 16
	slli	a5, a5, 24
	or	t0, a1, a0
	or	t1, a5, a4
	lbu	a1, 24(a2)
	lbu	a5, 25(a2)
	lbu	a0, 26(a2)
	lbu	a4, 27(a2)
	slli	a7, a7, 8
	slli	s1, s1, 16
	slli	s0, s0, 24
	slli	a5, a5, 8
	slli	a0, a0, 16
	slli	a4, a4, 24
	or	a6, a7, a6
	or	s0, s0, s1
	or	a1, a1, a5
	or	a0, a0, a4
	lbu	a4, 29(a2)
	lbu	a5, 28(a2)
	lbu	s1, 30(a2)
	mv	s7, a2
	lbu	a2, 31(a2)
	slli	a4, a4, 8
	or	a4, a4, a5
	slli	s1, s1, 16
	slli	a2, a2, 24
	or	a2, a2, s1
	or	a5, t1, t0
	or	s1, s0, a6
	or	a0, a0, a1
	or	a2, a2, a4
	slli	a1, s1, 32
	slli	a2, a2, 32
	or	a1, a1, a5
	or	a2, a2, a0
	addi	a0, sp, 328
	addi	a4, sp, 120
	call	noise_noise_c_supplied_keys_result_for
	lbu	a6, 328(sp)
	lbu	a1, 329(sp)
	lbu	a2, 330(sp)
	lbu	a7, 331(sp)
	lbu	t0, 332(sp)
	lbu	t1, 333(sp)
	lbu	t5, 334(sp)
	lbu	s11, 335(sp)
	lbu	a0, 336(sp)
	lbu	s10, 337(sp)
	lbu	a4, 338(sp)
	lbu	t2, 339(sp)
	lbu	t4, 340(sp)
	lbu	t3, 341(sp)
	lbu	a5, 342(sp)
	lbu	s1, 343(sp)
	slli	a2, a2, 8
	or	t6, a2, a1
	lbu	a1, 344(sp)
	lbu	a2, 345(sp)
	lbu	s0, 346(sp)
	lbu	ra, 347(sp)
	slli	a7, a7, 16
	slli	t0, t0, 24
	slli	t5, t5, 8
	slli	s11, s11, 16
	slli	a0, a0, 24
	slli	a3, a4, 8
	or	a7, t0, a7
	or	t0, t5, t1
	or	t5, a0, s11
	or	t1, a3, s10
	lbu	s10, 348(sp)
	lbu	a3, 349(sp)
	lbu	a4, 350(sp)
	lbu	a0, 351(sp)
	slli	t2, t2, 16
	slli	t4, t4, 24
	slli	a5, a5, 8
	slli	s1, s1, 16
	slli	a1, a1, 24
	slli	s0, s0, 8
	or	t2, t4, t2
	or	t3, a5, t3
	or	t4, a1, s1
	or	s11, s0, a2
	lbu	s1, 352(sp)
	lbu	s0, 353(sp)
	lbu	a5, 354(sp)
	lbu	a1, 355(sp)
	slli	ra, ra, 16
	slli	s10, s10, 24
	slli	a4, a4, 8
	slli	a0, a0, 16
	slli	s1, s1, 24
	slli	a5, a5, 8
	or	s10, s10, ra
	or	ra, a4, a3
	or	a0, a0, s1
	or	a5, a5, s0
	lbu	a4, 356(sp)
	lbu	s0, 357(sp)
	lbu	s1, 358(sp)
	lbu	a2, 359(sp)
	slli	a1, a1, 16
	slli	a4, a4, 24
	or	a1, a1, a4
	lbu	a4, 360(sp)
	slli	s1, s1, 8
	or	s0, s0, s1
	slli	a2, a2, 16
	slli	a4, a4, 24
	or	a2, a2, a4
	or	a4, a7, t6
	or	s1, t5, t0
	or	a7, t2, t1
	or	a3, t4, t3
	or	t0, s10, s11
	or	a0, a0, ra
	or	a1, a1, a5
	or	a2, a2, s0
	slli	s1, s1, 32
	or	a4, a4, s1
	slli	a3, a3, 32
	or	a3, a3, a7
	slli	a0, a0, 32
	or	a0, a0, t0
	slli	a2, a2, 32
	or	a1, a1, a2
	li	s1, 1
	sd	a4, 8(sp)
	sd	a3, 16(sp)
	sd	a0, 24(sp)
	sd	a1, 32(sp)
	bne	a6, s1, .Lnoise_BB46_29
	ld	a0, 8(sp)
	ld	a1, 16(sp)
	ld	a2, 24(sp)
	ld	a3, 32(sp)
	sd	a0, 40(sp)
	sd	a1, 48(sp)
	sd	a2, 56(sp)
	sd	a3, 64(sp)
	addi	a0, sp, 120
	li	a2, 208
	li	a1, 0
	call	memset
	addi	a0, sp, 40
	li	s0, 32
	sd	a0, 104(sp)
	sd	s0, 112(sp)
	sd	zero, 536(sp)
	sd	zero, 544(sp)
	sd	zero, 552(sp)
	sd	zero, 560(sp)
	addi	a0, sp, 328
	li	a2, 208
	li	a1, 0
	call	memset
	addi	a0, sp, 328
	mv	a1, s8
	call	noise_noise_kdf_keyed_Hmac_new
	addi	a0, sp, 536
	addi	a1, sp, 328
	addi	a2, sp, 104
	li	a3, 1
	call	noise_noise_kdf_keyed_Hmac_code
	addi	a0, sp, 120
	addi	a1, sp, 536
	call	noise_noise_kdf_keyed_Hmac_new
	sd	zero, 632(sp)
	sd	zero, 640(sp)
	sd	zero, 648(sp)
	sd	zero, 656(sp)
	sd	zero, 600(sp)
	sd	zero, 608(sp)
	sd	zero, 616(sp)
	sd	zero, 624(sp)
.Lnoise_pcrel_hi47:
	auipc	a2, %pcrel_hi(.Lnoise_static.102)
	addi	a0, sp, 600
	addi	a1, sp, 120
	addi	a2, a2, %pcrel_lo(.Lnoise_pcrel_hi47)
	li	a3, 1
	call	noise_noise_kdf_keyed_Hmac_code
	ld	a0, 600(sp)
	ld	a1, 608(sp)
	ld	a2, 616(sp)
	ld	a3, 624(sp)
	addi	a4, sp, 664
	sd	a0, 664(sp)
	sd	a1, 672(sp)
	sd	a2, 680(sp)
	sd	a3, 688(sp)
.Lnoise_pcrel_hi48:
	auipc	a0, %pcrel_hi(.Lnoise_static.103)
	addi	a0, a0, %pcrel_lo(.Lnoise_pcrel_hi48)
	sd	a4, 568(sp)
	sd	s0, 576(sp)
	sd	a0, 584(sp)
	sd	s1, 592(sp)
	addi	a0, sp, 632
	addi	a1, sp, 120
	addi	a2, sp, 568
	li	a3, 2
	call	noise_noise_kdf_keyed_Hmac_code
	ld	a0, 664(sp)
	ld	a1, 672(sp)
	ld	a2, 680(sp)
	ld	a3, 688(sp)
	sd	a0, 328(sp)
	sd	a1, 336(sp)
	sd	a2, 344(sp)
	sd	a3, 352(sp)
	addi	s0, sp, 360
	addi	a1, sp, 632
	li	a2, 32
	mv	a0, s0
	call	memcpy
	addi	a1, sp, 328
	li	a2, 32
	mv	a0, s8
	call	memcpy
	sb	s1, 64(s8)
	addi	a0, s8, 65
	li	a2, 32
	mv	a1, s0
	call	memcpy
	li	s1, 0
	sb	zero, 108(s8)
	sb	zero, 109(s8)
	sb	zero, 110(s8)
	sb	zero, 111(s8)
	sb	zero, 104(s8)
	sb	zero, 105(s8)
	sb	zero, 106(s8)
	sb	zero, 107(s8)
	ld	a1, 0(sp)
	j	.Lnoise_BB46_33
.Lnoise_BB46_29:
	li	a1, 0
	li	a0, 1
	j	.Lnoise_BB46_36
.Lnoise_BB46_30:
	addi	a1, sp, 72
	li	a2, 32
	li	s1, 32
	mv	a0, s9
.Lnoise_BB46_31:
	call	memcpy
.Lnoise_BB46_32:
	mv	a1, s10
.Lnoise_BB46_33:
	lbu	a0, 0(s6)
	addi	a5, s6, 4
	addi	a6, s5, -1
	add	a7, s9, s1
	addi	a0, a0, -6
	seqz	a0, a0
	slli	a3, a0, 5
	sub	a4, s3, a0
	add	a3, a3, s4
	sub	t3, s2, s1
	mv	a0, s8
	mv	a2, s7
	call	noise_noise_handshake_writer_write_tokens_3dfcfe118667ed30
	zext.b	a2, a0
	beqz	a2, .Lnoise_BB46_35
	li	s1, 1
.Lnoise_BB46_35:
	add	a1, a1, s1
.Lnoise_BB46_36:
	ld	ra, 792(sp)
	ld	s0, 784(sp)
	ld	s1, 776(sp)
	ld	s2, 768(sp)
	ld	s3, 760(sp)
	ld	s4, 752(sp)
	ld	s5, 744(sp)
	ld	s6, 736(sp)
	ld	s7, 728(sp)
	ld	s8, 720(sp)
	ld	s9, 712(sp)
	ld	s10, 704(sp)
	ld	s11, 696(sp)
	.cfi_restore ra
	.cfi_restore s0
	.cfi_restore s1
	.cfi_restore s2
	.cfi_restore s3
	.cfi_restore s4
	.cfi_restore s5
	.cfi_restore s6
	.cfi_restore s7
	.cfi_restore s8
	.cfi_restore s9
	.cfi_restore s10
	.cfi_restore s11
	addi	sp, sp, 800
	.cfi_def_cfa_offset 0
	ret
.Lnoise_BB46_37:
	.cfi_restore_state
	unimp
.Lnoise_func_end46:
	.size	noise_noise_handshake_writer_write_tokens_3dfcfe118667ed30, .Lnoise_func_end46-noise_noise_handshake_writer_write_tokens_3dfcfe118667ed30
	.cfi_endproc

	.section	.text.noise_cipher_decrypt,"ax",@progbits
	.globl	noise_cipher_decrypt
	.p2align	1
	.type	noise_cipher_decrypt,@function
noise_cipher_decrypt:
	.cfi_startproc
	addi	sp, sp, -128
	.cfi_def_cfa_offset 128
	sd	ra, 120(sp)
	sd	s0, 112(sp)
	sd	s1, 104(sp)
	sd	s2, 96(sp)
	sd	s3, 88(sp)
	sd	s4, 80(sp)
	sd	s5, 72(sp)
	sd	s6, 64(sp)
	.cfi_offset ra, -8
	.cfi_offset s0, -16
	.cfi_offset s1, -24
	.cfi_offset s2, -32
	.cfi_offset s3, -40
	.cfi_offset s4, -48
	.cfi_offset s5, -56
	.cfi_offset s6, -64
	.cfi_remember_state
	sd	zero, 48(sp)
	lw	s1, 0(a0)
	lui	s0, 321265
	addi	s0, s0, -1791
	sd	zero, 0(sp)
	sd	zero, 8(sp)
	bne	s1, s0, .Lnoise_BB47_3
	lbu	s1, 4(a0)
	beqz	s1, .Lnoise_BB47_5
	li	a0, 22
	j	.Lnoise_BB47_4
.Lnoise_BB47_3:
	li	a0, 23
.Lnoise_BB47_4:
	ld	ra, 120(sp)
	ld	s0, 112(sp)
	ld	s1, 104(sp)
	ld	s2, 96(sp)
	ld	s3, 88(sp)
	ld	s4, 80(sp)
	ld	s5, 72(sp)
	ld	s6, 64(sp)
	.cfi_restore ra
	.cfi_restore s0
	.cfi_restore s1
	.cfi_restore s2
	.cfi_restore s3
	.cfi_restore s4
	.cfi_restore s5
	.cfi_restore s6
	addi	sp, sp, 128
	.cfi_def_cfa_offset 0
	ret
.Lnoise_BB47_5:
	.cfi_restore_state
	mv	s6, a1
	mv	s5, a3
	mv	s4, a4
	mv	s3, a5
	addi	a1, a0, 5
	mv	s2, a0
	ld	s0, 40(a0)
	li	a0, 1
	sb	a0, 16(sp)
	addi	a0, sp, 17
	mv	s1, a2
	li	a2, 32
	call	memcpy
	srli	a0, s1, 16
	sd	s0, 56(sp)
	beqz	a0, .Lnoise_BB47_7
	li	a0, 24
	j	.Lnoise_BB47_4
.Lnoise_BB47_7:
	mv	a3, s1
	seqz	a0, s6
	slli	a0, a0, 12
	add	a2, s6, a0
	seqz	a0, s5
	slli	a0, a0, 12
	add	a4, s5, a0
	mv	a0, sp
	addi	a1, sp, 16
	mv	a5, s4
	call	noise_noise_state_cipher_CipherState_decrypt
	lbu	a0, 0(sp)
	beqz	a0, .Lnoise_BB47_9
	lbu	a0, 1(sp)
.Lnoise_pcrel_hi49:
	auipc	a1, %pcrel_hi(.Lnoise_switch.table.noise_cipher_encrypt)
	slli	a0, a0, 2
	addi	a1, a1, %pcrel_lo(.Lnoise_pcrel_hi49)
	add	a0, a0, a1
	lw	a0, 0(a0)
	j	.Lnoise_BB47_4
.Lnoise_BB47_9:
	ld	a1, 8(sp)
	ld	a2, 56(sp)
	sd	zero, 0(s3)
	sd	a1, 8(s3)
	sd	a2, 40(s2)
	j	.Lnoise_BB47_4
.Lnoise_func_end47:
	.size	noise_cipher_decrypt, .Lnoise_func_end47-noise_cipher_decrypt
	.cfi_endproc

	.section	.text.noise_cipher_encrypt,"ax",@progbits
	.globl	noise_cipher_encrypt
	.p2align	1
	.type	noise_cipher_encrypt,@function
noise_cipher_encrypt:
	.cfi_startproc
	addi	sp, sp, -144
	.cfi_def_cfa_offset 144
	sd	ra, 136(sp)
	sd	s0, 128(sp)
	sd	s1, 120(sp)
	sd	s2, 112(sp)
	sd	s3, 104(sp)
	sd	s4, 96(sp)
	sd	s5, 88(sp)
	sd	s6, 80(sp)
	sd	s7, 72(sp)
	.cfi_offset ra, -8
	.cfi_offset s0, -16
	.cfi_offset s1, -24
	.cfi_offset s2, -32
	.cfi_offset s3, -40
	.cfi_offset s4, -48
	.cfi_offset s5, -56
	.cfi_offset s6, -64
	.cfi_offset s7, -72
	.cfi_remember_state
	sd	zero, 56(sp)
	lw	s1, 0(a0)
	lui	s0, 321265
	addi	s0, s0, -2047
	sd	zero, 8(sp)
	sd	zero, 16(sp)
	bne	s1, s0, .Lnoise_BB48_3
	lbu	s1, 4(a0)
	beqz	s1, .Lnoise_BB48_5
	li	a0, 22
	j	.Lnoise_BB48_4
.Lnoise_BB48_3:
	li	a0, 23
.Lnoise_BB48_4:
	ld	ra, 136(sp)
	ld	s0, 128(sp)
	ld	s1, 120(sp)
	ld	s2, 112(sp)
	ld	s3, 104(sp)
	ld	s4, 96(sp)
	ld	s5, 88(sp)
	ld	s6, 80(sp)
	ld	s7, 72(sp)
	.cfi_restore ra
	.cfi_restore s0
	.cfi_restore s1
	.cfi_restore s2
	.cfi_restore s3
	.cfi_restore s4
	.cfi_restore s5
	.cfi_restore s6
	.cfi_restore s7
	addi	sp, sp, 144
	.cfi_def_cfa_offset 0
	ret
.Lnoise_BB48_5:
	.cfi_restore_state
	mv	s5, a4
	mv	s6, a1
	mv	s7, a3
	mv	s4, a5
	mv	s3, a6
	addi	a1, a0, 5
	mv	s2, a0
	ld	s1, 40(a0)
	li	a0, 1
	sb	a0, 24(sp)
	addi	a0, sp, 25
	mv	s0, a2
	li	a2, 32
	call	memcpy
	srli	a0, s0, 16
	sd	s1, 64(sp)
	beqz	a0, .Lnoise_BB48_7
	li	a0, 24
	j	.Lnoise_BB48_4
.Lnoise_BB48_7:
	li	a1, 16
	li	a0, 18
	bltu	s5, a1, .Lnoise_BB48_4
	addi	s5, s5, -16
	bltu	s5, s4, .Lnoise_BB48_4
	mv	a3, s0
	mv	a5, s4
	seqz	a0, s6
	slli	a0, a0, 12
	add	a2, s6, a0
	seqz	a0, s7
	slli	a0, a0, 12
	add	a4, s7, a0
	addi	a0, sp, 8
	addi	a1, sp, 24
	call	noise_noise_state_cipher_CipherState_encrypt
	lbu	a0, 8(sp)
	beqz	a0, .Lnoise_BB48_11
	lbu	a0, 9(sp)
.Lnoise_pcrel_hi50:
	auipc	a1, %pcrel_hi(.Lnoise_switch.table.noise_cipher_encrypt)
	slli	a0, a0, 2
	addi	a1, a1, %pcrel_lo(.Lnoise_pcrel_hi50)
	add	a0, a0, a1
	lw	a0, 0(a0)
	j	.Lnoise_BB48_4
.Lnoise_BB48_11:
	ld	a1, 16(sp)
	ld	a2, 64(sp)
	sd	zero, 0(s3)
	sd	a1, 8(s3)
	sd	a2, 40(s2)
	j	.Lnoise_BB48_4
.Lnoise_func_end48:
	.size	noise_cipher_encrypt, .Lnoise_func_end48-noise_cipher_encrypt
	.cfi_endproc

	.section	.text.noise_cipher_nonce,"ax",@progbits
	.globl	noise_cipher_nonce
	.p2align	1
	.type	noise_cipher_nonce,@function
noise_cipher_nonce:
	.cfi_startproc
	lw	a2, 0(a0)
	lui	a3, 321265
	andi	a2, a2, -257
	addi	a3, a3, -2047
	bne	a2, a3, .Lnoise_BB49_3
	lbu	a2, 4(a0)
	beqz	a2, .Lnoise_BB49_4
	li	a0, 22
	ret
.Lnoise_BB49_3:
	li	a0, 23
	ret
.Lnoise_BB49_4:
	mv	a2, a0
	li	a0, 0
	ld	a2, 40(a2)
	sd	a2, 0(a1)
	ret
.Lnoise_func_end49:
	.size	noise_cipher_nonce, .Lnoise_func_end49-noise_cipher_nonce
	.cfi_endproc

	.section	.text.noise_cipher_rekey,"ax",@progbits
	.globl	noise_cipher_rekey
	.p2align	1
	.type	noise_cipher_rekey,@function
noise_cipher_rekey:
	.cfi_startproc
	addi	sp, sp, -96
	.cfi_def_cfa_offset 96
	sd	ra, 88(sp)
	sd	s0, 80(sp)
	sd	s1, 72(sp)
	sd	s2, 64(sp)
	sd	s3, 56(sp)
	.cfi_offset ra, -8
	.cfi_offset s0, -16
	.cfi_offset s1, -24
	.cfi_offset s2, -32
	.cfi_offset s3, -40
	lw	a1, 0(a0)
	lui	a2, 321265
	andi	a1, a1, -257
	addi	a2, a2, -2047
	sd	zero, 40(sp)
	bne	a1, a2, .Lnoise_BB50_3
	lbu	a1, 4(a0)
	beqz	a1, .Lnoise_BB50_4
	li	a0, 22
	j	.Lnoise_BB50_7
.Lnoise_BB50_3:
	li	a0, 23
	j	.Lnoise_BB50_7
.Lnoise_BB50_4:
	addi	s0, a0, 5
	ld	s1, 40(a0)
	li	s3, 1
	sb	s3, 8(sp)
	addi	s2, sp, 9
	li	a2, 32
	mv	a0, s2
	mv	a1, s0
	call	memcpy
	sd	s1, 48(sp)
	addi	a0, sp, 8
	call	noise_noise_state_cipher_CipherState_rekey
	lbu	a0, 8(sp)
	bne	a0, s3, .Lnoise_BB50_6
	li	a2, 32
	mv	a0, s0
	mv	a1, s2
	call	memcpy
.Lnoise_BB50_6:
	li	a0, 0
.Lnoise_BB50_7:
	ld	ra, 88(sp)
	ld	s0, 80(sp)
	ld	s1, 72(sp)
	ld	s2, 64(sp)
	ld	s3, 56(sp)
	.cfi_restore ra
	.cfi_restore s0
	.cfi_restore s1
	.cfi_restore s2
	.cfi_restore s3
	addi	sp, sp, 96
	.cfi_def_cfa_offset 0
	ret
.Lnoise_func_end50:
	.size	noise_cipher_rekey, .Lnoise_func_end50-noise_cipher_rekey
	.cfi_endproc

	.section	.text.noise_cipher_set_nonce,"ax",@progbits
	.globl	noise_cipher_set_nonce
	.p2align	1
	.type	noise_cipher_set_nonce,@function
noise_cipher_set_nonce:
	.cfi_startproc
	lw	a2, 0(a0)
	lui	a3, 321265
	andi	a2, a2, -257
	addi	a3, a3, -2047
	bne	a2, a3, .Lnoise_BB51_3
	lbu	a2, 4(a0)
	beqz	a2, .Lnoise_BB51_4
	li	a0, 22
	ret
.Lnoise_BB51_3:
	li	a0, 23
	ret
.Lnoise_BB51_4:
	sd	a1, 40(a0)
	li	a0, 0
	ret
.Lnoise_func_end51:
	.size	noise_cipher_set_nonce, .Lnoise_func_end51-noise_cipher_set_nonce
	.cfi_endproc

	.section	.text.noise_cipher_size,"ax",@progbits
	.globl	noise_cipher_size
	.p2align	1
	.type	noise_cipher_size,@function
noise_cipher_size:
	.cfi_startproc
	li	a0, 48
	ret
.Lnoise_func_end52:
	.size	noise_cipher_size, .Lnoise_func_end52-noise_cipher_size
	.cfi_endproc

	.section	.text.noise_datagram_receiver_size,"ax",@progbits
	.globl	noise_datagram_receiver_size
	.p2align	1
	.type	noise_datagram_receiver_size,@function
noise_datagram_receiver_size:
	.cfi_startproc
	li	a0, 192
	ret
.Lnoise_func_end53:
	.size	noise_datagram_receiver_size, .Lnoise_func_end53-noise_datagram_receiver_size
	.cfi_endproc

	.section	.text.noise_datagram_sender_size,"ax",@progbits
	.globl	noise_datagram_sender_size
	.p2align	1
	.type	noise_datagram_sender_size,@function
noise_datagram_sender_size:
	.cfi_startproc
	li	a0, 48
	ret
.Lnoise_func_end54:
	.size	noise_datagram_sender_size, .Lnoise_func_end54-noise_datagram_sender_size
	.cfi_endproc

	.section	.text.noise_frame_find,"ax",@progbits
	.globl	noise_frame_find
	.p2align	1
	.type	noise_frame_find,@function
noise_frame_find:
	.cfi_startproc
	li	a3, 2
	bltu	a1, a3, .Lnoise_BB55_2
	seqz	a3, a0
	slli	a3, a3, 12
	add	a0, a0, a3
	lbu	a3, 0(a0)
	lbu	a0, 1(a0)
	slli	a3, a3, 8
	or	a4, a3, a0
	addi	a3, a4, 2
	bgeu	a1, a3, .Lnoise_BB55_3
.Lnoise_BB55_2:
	sub	a3, a3, a1
	sd	a3, 24(a2)
	li	a0, 42
	ret
.Lnoise_BB55_3:
	li	a0, 0
	li	a1, 2
	sd	a1, 0(a2)
	sd	a4, 8(a2)
	sd	a3, 16(a2)
	ret
.Lnoise_func_end55:
	.size	noise_frame_find, .Lnoise_func_end55-noise_frame_find
	.cfi_endproc

	.section	.text.noise_frame_message,"ax",@progbits
	.globl	noise_frame_message
	.p2align	1
	.type	noise_frame_message,@function
noise_frame_message:
	.cfi_startproc
	srli	a4, a2, 16
	beqz	a4, .Lnoise_BB56_2
	li	a0, 24
	ret
.Lnoise_BB56_2:
	mv	a4, a0
	li	a5, 2
	li	a0, 18
	bltu	a1, a5, .Lnoise_BB56_5
	addi	a1, a1, -2
	bltu	a1, a2, .Lnoise_BB56_5
	li	a0, 0
	seqz	a1, a4
	slli	a1, a1, 12
	add	a1, a1, a4
	srli	a4, a2, 8
	sb	a4, 0(a1)
	sb	a2, 1(a1)
	addi	a2, a2, 2
	sd	a2, 8(a3)
.Lnoise_BB56_5:
	ret
.Lnoise_func_end56:
	.size	noise_frame_message, .Lnoise_func_end56-noise_frame_message
	.cfi_endproc

	.section	.text.noise_handshake_size,"ax",@progbits
	.globl	noise_handshake_size
	.p2align	1
	.type	noise_handshake_size,@function
noise_handshake_size:
	.cfi_startproc
	li	a0, 1472
	ret
.Lnoise_func_end57:
	.size	noise_handshake_size, .Lnoise_func_end57-noise_handshake_size
	.cfi_endproc

	.section	.text.noise_receiver_size,"ax",@progbits
	.globl	noise_receiver_size
	.p2align	1
	.type	noise_receiver_size,@function
noise_receiver_size:
	.cfi_startproc
	li	a0, 56
	ret
.Lnoise_func_end58:
	.size	noise_receiver_size, .Lnoise_func_end58-noise_receiver_size
	.cfi_endproc

	.section	.text.noise_sender_size,"ax",@progbits
	.globl	noise_sender_size
	.p2align	1
	.type	noise_sender_size,@function
noise_sender_size:
	.cfi_startproc
	li	a0, 56
	ret
.Lnoise_func_end59:
	.size	noise_sender_size, .Lnoise_func_end59-noise_sender_size
	.cfi_endproc

	.section	.text.noise_stream_receiver_size,"ax",@progbits
	.globl	noise_stream_receiver_size
	.p2align	1
	.type	noise_stream_receiver_size,@function
noise_stream_receiver_size:
	.cfi_startproc
	li	a0, 64
	ret
.Lnoise_func_end60:
	.size	noise_stream_receiver_size, .Lnoise_func_end60-noise_stream_receiver_size
	.cfi_endproc

	.section	.text.noise_stream_sender_size,"ax",@progbits
	.globl	noise_stream_sender_size
	.p2align	1
	.type	noise_stream_sender_size,@function
noise_stream_sender_size:
	.cfi_startproc
	li	a0, 64
	ret
.Lnoise_func_end61:
	.size	noise_stream_sender_size, .Lnoise_func_end61-noise_stream_sender_size
	.cfi_endproc

	.section	.text.noise_version,"ax",@progbits
	.globl	noise_version
	.p2align	1
	.type	noise_version,@function
noise_version:
	.cfi_startproc
	lui	a0, 16
	ret
.Lnoise_func_end62:
	.size	noise_version, .Lnoise_func_end62-noise_version
	.cfi_endproc

	.section	.text.noise_answer,"ax",@progbits
	.globl	noise_answer
	.p2align	1
	.type	noise_answer,@function
noise_answer:
	.cfi_startproc
	addi	sp, sp, -368
	.cfi_def_cfa_offset 368
	sd	ra, 360(sp)
	sd	s0, 352(sp)
	sd	s1, 344(sp)
	sd	s2, 336(sp)
	sd	s3, 328(sp)
	sd	s4, 320(sp)
	sd	s5, 312(sp)
	sd	s6, 304(sp)
	sd	s7, 296(sp)
	sd	s8, 288(sp)
	sd	s9, 280(sp)
	sd	s10, 272(sp)
	sd	s11, 264(sp)
	.cfi_offset ra, -8
	.cfi_offset s0, -16
	.cfi_offset s1, -24
	.cfi_offset s2, -32
	.cfi_offset s3, -40
	.cfi_offset s4, -48
	.cfi_offset s5, -56
	.cfi_offset s6, -64
	.cfi_offset s7, -72
	.cfi_offset s8, -80
	.cfi_offset s9, -88
	.cfi_offset s10, -96
	.cfi_offset s11, -104
	sd	a1, 120(sp)
	sd	a0, 128(sp)
	lw	a0, 0(a0)
	lui	a1, 321264
	addi	a1, a1, 257
	li	a4, 23
	bne	a0, a1, .Lnoise_BB63_5
	ld	a0, 128(sp)
	lbu	a1, 846(a0)
	li	a0, 8
	bltu	a0, a1, .Lnoise_BB63_5
	lbu	a5, 24(a2)
	lbu	a0, 25(a2)
	lbu	t0, 26(a2)
	lbu	t1, 27(a2)
	lbu	a4, 28(a2)
	sd	a4, 88(sp)
	lbu	t2, 29(a2)
	lbu	t3, 30(a2)
	lbu	s7, 31(a2)
	lbu	s11, 16(a2)
	lbu	s0, 17(a2)
	lbu	t5, 18(a2)
	lbu	t6, 19(a2)
	lbu	a4, 20(a2)
	sd	a4, 56(sp)
	lbu	s6, 21(a2)
	lbu	ra, 22(a2)
	lbu	s1, 23(a2)
	lbu	a6, 8(a2)
	lbu	a7, 9(a2)
	lbu	s4, 10(a2)
	lbu	s5, 11(a2)
	lbu	s3, 12(a2)
	lbu	s8, 13(a2)
	sd	a1, 112(sp)
	lbu	s2, 14(a2)
	lbu	a4, 15(a2)
	slli	a0, a0, 8
	or	a0, a0, a5
	sd	a0, 104(sp)
	lbu	t4, 0(a2)
	lbu	a1, 1(a2)
	lbu	s9, 2(a2)
	lbu	s10, 3(a2)
	slli	t0, t0, 16
	slli	t1, t1, 24
	slli	t2, t2, 8
	slli	t3, t3, 16
	slli	s7, s7, 24
	slli	s0, s0, 8
	or	a0, t1, t0
	sd	a0, 96(sp)
	ld	a0, 88(sp)
	or	a0, t2, a0
	sd	a0, 88(sp)
	or	a0, s7, t3
	sd	a0, 80(sp)
	or	a0, s0, s11
	sd	a0, 72(sp)
	lbu	s7, 4(a2)
	lbu	s11, 5(a2)
	lbu	s0, 6(a2)
	lbu	a0, 7(a2)
	slli	t5, t5, 16
	slli	t6, t6, 24
	slli	s6, s6, 8
	slli	ra, ra, 16
	slli	s1, s1, 24
	slli	a7, a7, 8
	or	a5, t6, t5
	sd	a5, 64(sp)
	ld	a5, 56(sp)
	or	a5, s6, a5
	sd	a5, 56(sp)
	or	a5, s1, ra
	sd	a5, 48(sp)
	or	a5, a7, a6
	sd	a5, 40(sp)
	lbu	t0, 0(a3)
	lbu	s1, 1(a3)
	lbu	a7, 2(a3)
	lbu	ra, 3(a3)
	slli	s4, s4, 16
	slli	s5, s5, 24
	slli	s8, s8, 8
	slli	s2, s2, 16
	slli	a6, a4, 24
	slli	a1, a1, 8
	or	a4, s5, s4
	sd	a4, 32(sp)
	or	a4, s8, s3
	sd	a4, 24(sp)
	or	s6, a6, s2
	or	a1, a1, t4
	sd	a1, 16(sp)
	lbu	a6, 4(a3)
	lbu	s2, 5(a3)
	lbu	a1, 6(a3)
	lbu	a4, 7(a3)
	slli	s9, s9, 16
	slli	s10, s10, 24
	slli	s11, s11, 8
	slli	s0, s0, 16
	slli	a0, a0, 24
	slli	s1, s1, 8
	or	s5, s10, s9
	or	a5, s11, s7
	sd	a5, 8(sp)
	or	s7, a0, s0
	or	s8, s1, t0
	lbu	a0, 8(a3)
	lbu	a5, 9(a3)
	lbu	s0, 10(a3)
	lbu	s1, 11(a3)
	slli	a7, a7, 16
	slli	ra, ra, 24
	slli	s2, s2, 8
	slli	a1, a1, 16
	slli	a4, a4, 24
	slli	a5, a5, 8
	or	ra, ra, a7
	or	s11, s2, a6
	or	s3, a4, a1
	or	s10, a5, a0
	lbu	a6, 12(a3)
	lbu	a5, 13(a3)
	lbu	a1, 14(a3)
	lbu	a0, 15(a3)
	slli	s0, s0, 16
	slli	s1, s1, 24
	slli	a5, a5, 8
	slli	a1, a1, 16
	slli	a0, a0, 24
	or	t6, s1, s0
	or	s9, a5, a6
	or	t5, a0, a1
	lbu	a0, 17(a3)
	lbu	a1, 16(a3)
	lbu	a5, 18(a3)
	lbu	s2, 19(a3)
	slli	a0, a0, 8
	or	t4, a0, a1
	slli	a5, a5, 16
	slli	a0, s2, 24
	or	s2, a0, a5
	lbu	a5, 21(a3)
	lbu	a4, 20(a3)
	lbu	a1, 22(a3)
	lbu	a0, 23(a3)
	slli	a5, a5, 8
	or	t3, a5, a4
	slli	a1, a1, 16
	slli	a0, a0, 24
	or	t2, a0, a1
	lbu	a4, 25(a3)
	lbu	a5, 24(a3)
	lbu	a1, 26(a3)
	lbu	a0, 27(a3)
	slli	a4, a4, 8
	or	t1, a4, a5
	slli	a1, a1, 16
	slli	a0, a0, 24
	or	t0, a0, a1
	lbu	a4, 29(a3)
	lbu	a5, 28(a3)
	lbu	a1, 30(a3)
	lbu	a0, 31(a3)
	slli	a4, a4, 8
	or	a7, a4, a5
	slli	a1, a1, 16
	slli	a0, a0, 24
	or	a1, a1, a0
	ld	a0, 104(sp)
	ld	a4, 96(sp)
	or	a6, a4, a0
	ld	a0, 88(sp)
	ld	a5, 80(sp)
	or	a5, a5, a0
	ld	a0, 72(sp)
	ld	a4, 64(sp)
	or	a4, a4, a0
	ld	a0, 56(sp)
	ld	s4, 48(sp)
	or	a0, s4, a0
	ld	s1, 40(sp)
	ld	s0, 32(sp)
	or	s4, s0, s1
	ld	s0, 24(sp)
	or	s6, s6, s0
	ld	s0, 16(sp)
	or	s5, s5, s0
	ld	s0, 8(sp)
	or	s7, s7, s0
	or	s8, ra, s8
	or	s3, s3, s11
	or	t6, t6, s10
	or	s0, t5, s9
	or	t4, s2, t4
	ld	s2, 112(sp)
	or	s1, t2, t3
	or	t0, t0, t1
	or	a1, a1, a7
	slli	a5, a5, 32
	or	a6, a5, a6
	slli	a0, a0, 32
	or	a7, a0, a4
	slli	s6, s6, 32
	or	a4, s6, s4
	slli	s7, s7, 32
	or	a5, s7, s5
	slli	s3, s3, 32
	or	a0, s3, s8
	slli	s0, s0, 32
	or	s0, s0, t6
	slli	s1, s1, 32
	or	s1, s1, t4
	slli	a1, a1, 32
	or	a1, a1, t0
	sd	a5, 168(sp)
	sd	a4, 176(sp)
	sd	a7, 184(sp)
	sd	a6, 192(sp)
	sd	a0, 136(sp)
	sd	s0, 144(sp)
	sd	s1, 152(sp)
	sd	a1, 160(sp)
	li	a0, 8
	bne	s2, a0, .Lnoise_BB63_4
	lbu	a6, 0(a2)
	lbu	a1, 1(a2)
	lbu	s0, 2(a2)
	lbu	a0, 3(a2)
	lbu	t0, 4(a2)
	lbu	t1, 5(a2)
	lbu	t2, 6(a2)
	lbu	t6, 7(a2)
	lbu	s8, 8(a2)
	lbu	a4, 9(a2)
	lbu	t3, 10(a2)
	lbu	t5, 11(a2)
	lbu	t4, 12(a2)
	lbu	s5, 13(a2)
	lbu	s9, 14(a2)
	lbu	s10, 15(a2)
	lbu	s1, 16(a2)
	lbu	a5, 17(a2)
	lbu	s3, 18(a2)
	lbu	s4, 19(a2)
	lbu	s2, 20(a2)
	lbu	s6, 21(a2)
	lbu	s7, 22(a2)
	lbu	s11, 23(a2)
	slli	a1, a1, 8
	slli	s0, s0, 16
	slli	a0, a0, 24
	or	a1, a1, a6
	sd	a1, 112(sp)
	or	a0, a0, s0
	sd	a0, 104(sp)
	lbu	a0, 24(a2)
	lbu	a1, 25(a2)
	lbu	ra, 26(a2)
	lbu	a7, 27(a2)
	slli	t1, t1, 8
	slli	t2, t2, 16
	slli	t6, t6, 24
	slli	a4, a4, 8
	or	s0, t1, t0
	sd	s0, 96(sp)
	or	s0, t6, t2
	sd	s0, 88(sp)
	or	a4, a4, s8
	sd	a4, 80(sp)
	lbu	s8, 28(a2)
	lbu	a4, 29(a2)
	lbu	a6, 30(a2)
	lbu	a2, 31(a2)
	slli	t3, t3, 16
	slli	t5, t5, 24
	slli	s5, s5, 8
	slli	s9, s9, 16
	slli	s10, s10, 24
	slli	a5, a5, 8
	or	s0, t5, t3
	sd	s0, 72(sp)
	or	s0, s5, t4
	sd	s0, 64(sp)
	or	t6, s10, s9
	or	a5, a5, s1
	sd	a5, 56(sp)
	lbu	a5, 0(a3)
	lbu	s1, 1(a3)
	lbu	s10, 2(a3)
	lbu	s9, 3(a3)
	slli	s3, s3, 16
	slli	s4, s4, 24
	slli	s6, s6, 8
	slli	s7, s7, 16
	slli	s11, s11, 24
	slli	a1, a1, 8
	or	s0, s4, s3
	sd	s0, 48(sp)
	or	s2, s6, s2
	or	s5, s11, s7
	or	a0, a0, a1
	sd	a0, 40(sp)
	lbu	a1, 4(a3)
	lbu	s11, 5(a3)
	lbu	s6, 6(a3)
	lbu	a0, 7(a3)
	slli	ra, ra, 16
	slli	s0, a7, 24
	slli	a4, a4, 8
	slli	a6, a6, 16
	slli	a2, a2, 24
	slli	s1, s1, 8
	or	s3, s0, ra
	or	ra, a4, s8
	or	t4, a2, a6
	or	s4, s1, a5
	lbu	a2, 8(a3)
	lbu	a4, 9(a3)
	lbu	a5, 10(a3)
	lbu	s0, 11(a3)
	slli	s10, s10, 16
	slli	s9, s9, 24
	slli	s1, s11, 8
	slli	s6, s6, 16
	slli	a0, a0, 24
	slli	a4, a4, 8
	or	s11, s9, s10
	or	s10, s1, a1
	or	s9, a0, s6
	or	s8, a4, a2
	lbu	a0, 12(a3)
	lbu	a4, 13(a3)
	lbu	a2, 14(a3)
	lbu	a1, 15(a3)
	slli	a5, a5, 16
	slli	s0, s0, 24
	slli	a4, a4, 8
	slli	a2, a2, 16
	slli	a1, a1, 24
	or	s6, s0, a5
	or	s7, a4, a0
	or	t3, a1, a2
	lbu	a0, 17(a3)
	lbu	a2, 16(a3)
	lbu	s1, 18(a3)
	lbu	a5, 19(a3)
	slli	a0, a0, 8
	or	t2, a0, a2
	slli	s1, s1, 16
	slli	a0, a5, 24
	or	t0, a0, s1
	lbu	a5, 21(a3)
	lbu	s1, 20(a3)
	lbu	a1, 22(a3)
	lbu	a0, 23(a3)
	slli	a5, a5, 8
	or	t1, a5, s1
	slli	a1, a1, 16
	slli	a0, a0, 24
	or	a6, a0, a1
	lbu	a2, 25(a3)
	lbu	s1, 24(a3)
	lbu	a1, 26(a3)
	lbu	a0, 27(a3)
	slli	a2, a2, 8
	or	a7, a2, s1
	slli	a1, a1, 16
	slli	a0, a0, 24
	or	a4, a0, a1
	lbu	a1, 29(a3)
	lbu	s1, 28(a3)
	lbu	a0, 30(a3)
	lbu	a3, 31(a3)
	slli	a1, a1, 8
	or	a2, a1, s1
	slli	a0, a0, 16
	slli	a3, a3, 24
	or	a0, a0, a3
	ld	a1, 112(sp)
	ld	a3, 104(sp)
	or	a3, a3, a1
	ld	a1, 96(sp)
	ld	s1, 88(sp)
	or	s1, s1, a1
	ld	a1, 80(sp)
	ld	t5, 72(sp)
	or	a1, t5, a1
	ld	s0, 64(sp)
	or	t6, t6, s0
	ld	s0, 56(sp)
	ld	a5, 48(sp)
	or	t5, a5, s0
	or	s2, s5, s2
	ld	a5, 40(sp)
	or	s3, s3, a5
	or	t4, t4, ra
	or	s4, s11, s4
	or	s5, s9, s10
	or	s6, s6, s8
	or	s0, t3, s7
	or	t0, t0, t2
	or	a6, a6, t1
	or	a7, a4, a7
	or	a0, a0, a2
	slli	s1, s1, 32
	or	t1, s1, a3
	slli	t6, t6, 32
	or	t2, t6, a1
	slli	s2, s2, 32
	or	a2, s2, t5
	slli	t4, t4, 32
	or	a5, t4, s3
	slli	s5, s5, 32
	or	a3, s5, s4
	slli	s0, s0, 32
	or	a4, s0, s6
	slli	a6, a6, 32
	or	s1, a6, t0
	slli	a0, a0, 32
	or	a1, a0, a7
	ld	s0, 128(sp)
	addi	a0, s0, 847
	sd	t1, 232(sp)
	sd	t2, 240(sp)
	sd	a2, 248(sp)
	sd	a5, 256(sp)
	sd	a3, 200(sp)
	sd	a4, 208(sp)
	sd	s1, 216(sp)
	sd	a1, 224(sp)
	addi	s2, s0, 912
	li	a2, 65
	mv	a1, s2
	call	memcpy
	addi	s1, s0, 977
	li	a2, 65
	mv	a0, s2
	mv	a1, s1
	call	memcpy
	addi	s2, s0, 1042
	li	a2, 65
	mv	a0, s1
	mv	a1, s2
	call	memcpy
	addi	s1, s0, 1107
	li	a2, 65
	mv	a0, s2
	mv	a1, s1
	call	memcpy
	addi	s2, s0, 1172
	li	a2, 65
	mv	a0, s1
	mv	a1, s2
	call	memcpy
	addi	s1, s0, 1237
	li	a2, 65
	mv	a0, s2
	mv	a1, s1
	call	memcpy
	addi	a1, s0, 1302
	li	a2, 65
	mv	a0, s1
	call	memcpy
	ld	a0, 120(sp)
	sb	a0, 1302(s0)
	addi	a0, s0, 1303
	addi	a1, sp, 232
	li	a2, 32
	call	memcpy
	addi	a0, s0, 1335
	addi	a1, sp, 200
	li	a2, 32
	call	memcpy
	li	a4, 0
	j	.Lnoise_BB63_5
.Lnoise_BB63_4:
	slli	a0, s2, 6
	ld	s1, 128(sp)
	add	a1, s1, s2
	add	s0, a1, a0
	ld	a0, 120(sp)
	sb	a0, 847(s0)
	addi	a0, s0, 848
	addi	a1, sp, 168
	li	a2, 32
	call	memcpy
	addi	a0, s0, 880
	addi	a1, sp, 136
	li	a2, 32
	call	memcpy
	li	a4, 0
	addi	a0, s2, 1
	sb	a0, 846(s1)
.Lnoise_BB63_5:
	mv	a0, a4
	ld	ra, 360(sp)
	ld	s0, 352(sp)
	ld	s1, 344(sp)
	ld	s2, 336(sp)
	ld	s3, 328(sp)
	ld	s4, 320(sp)
	ld	s5, 312(sp)
	ld	s6, 304(sp)
	ld	s7, 296(sp)
	ld	s8, 288(sp)
	ld	s9, 280(sp)
	ld	s10, 272(sp)
	ld	s11, 264(sp)
	.cfi_restore ra
	.cfi_restore s0
	.cfi_restore s1
	.cfi_restore s2
	.cfi_restore s3
	.cfi_restore s4
	.cfi_restore s5
	.cfi_restore s6
	.cfi_restore s7
	.cfi_restore s8
	.cfi_restore s9
	.cfi_restore s10
	.cfi_restore s11
	addi	sp, sp, 368
	.cfi_def_cfa_offset 0
	ret
.Lnoise_func_end63:
	.size	noise_answer, .Lnoise_func_end63-noise_answer
	.cfi_endproc

	.section	.text.noise_datagram_sender_nonce,"ax",@progbits
	.globl	noise_datagram_sender_nonce
	.p2align	1
	.type	noise_datagram_sender_nonce,@function
noise_datagram_sender_nonce:
	.cfi_startproc
	mv	a2, a0
	lw	a3, 0(a0)
	lui	a0, 321264
	addi	a4, a0, 1537
	li	a0, 23
	bne	a3, a4, .Lnoise_BB64_3
	lbu	a3, 4(a2)
	addi	a3, a3, -1
	li	a4, 1
	bltu	a4, a3, .Lnoise_BB64_3
	li	a0, 0
	ld	a2, 40(a2)
	sd	a2, 0(a1)
.Lnoise_BB64_3:
	ret
.Lnoise_func_end64:
	.size	noise_datagram_sender_nonce, .Lnoise_func_end64-noise_datagram_sender_nonce
	.cfi_endproc

	.section	.text.noise_receiver_nonce,"ax",@progbits
	.globl	noise_receiver_nonce
	.p2align	1
	.type	noise_receiver_nonce,@function
noise_receiver_nonce:
	.cfi_startproc
	mv	a2, a0
	lw	a3, 0(a0)
	lui	a0, 321264
	addi	a4, a0, 1025
	li	a0, 23
	bne	a3, a4, .Lnoise_BB65_3
	lbu	a3, 4(a2)
	addi	a3, a3, -1
	li	a4, 1
	bltu	a4, a3, .Lnoise_BB65_3
	li	a0, 0
	ld	a2, 48(a2)
	sd	a2, 0(a1)
.Lnoise_BB65_3:
	ret
.Lnoise_func_end65:
	.size	noise_receiver_nonce, .Lnoise_func_end65-noise_receiver_nonce
	.cfi_endproc

	.section	.text.noise_sender_nonce,"ax",@progbits
	.globl	noise_sender_nonce
	.p2align	1
	.type	noise_sender_nonce,@function
noise_sender_nonce:
	.cfi_startproc
	mv	a2, a0
	lw	a3, 0(a0)
	lui	a0, 321264
	addi	a4, a0, 769
	li	a0, 23
	bne	a3, a4, .Lnoise_BB66_3
	lbu	a3, 4(a2)
	addi	a3, a3, -1
	li	a4, 1
	bltu	a4, a3, .Lnoise_BB66_3
	li	a0, 0
	ld	a2, 48(a2)
	sd	a2, 0(a1)
.Lnoise_BB66_3:
	ret
.Lnoise_func_end66:
	.size	noise_sender_nonce, .Lnoise_func_end66-noise_sender_nonce
	.cfi_endproc

	.section	.text.noise_open,"ax",@progbits
	.globl	noise_open
	.p2align	1
	.type	noise_open,@function
noise_open:
	.cfi_startproc
	addi	sp, sp, -160
	.cfi_def_cfa_offset 160
	sd	ra, 152(sp)
	sd	s0, 144(sp)
	sd	s1, 136(sp)
	sd	s2, 128(sp)
	sd	s3, 120(sp)
	sd	s4, 112(sp)
	sd	s5, 104(sp)
	sd	s6, 96(sp)
	sd	s7, 88(sp)
	sd	s8, 80(sp)
	.cfi_offset ra, -8
	.cfi_offset s0, -16
	.cfi_offset s1, -24
	.cfi_offset s2, -32
	.cfi_offset s3, -40
	.cfi_offset s4, -48
	.cfi_offset s5, -56
	.cfi_offset s6, -64
	.cfi_offset s7, -72
	.cfi_offset s8, -80
	.cfi_remember_state
	mv	a4, a0
	lw	a5, 0(a0)
	lui	a0, 321264
	addi	s1, a0, 1025
	li	a0, 23
	bne	a5, s1, .Lnoise_BB67_21
	lbu	a5, 4(a4)
	li	s1, 1
	beq	a5, s1, .Lnoise_BB67_5
	li	s1, 2
	bne	a5, s1, .Lnoise_BB67_21
	li	s1, 0
	li	a0, 1
	srli	a5, a2, 16
	beqz	a5, .Lnoise_BB67_6
.Lnoise_BB67_4:
	li	a0, 24
	j	.Lnoise_BB67_21
.Lnoise_BB67_5:
	li	a0, 0
	srli	a5, a2, 16
	bnez	a5, .Lnoise_BB67_4
.Lnoise_BB67_6:
	mv	s4, a1
	mv	s7, a2
	mv	s5, a3
	addi	s2, a4, 6
	lbu	a1, 5(a4)
	ld	a2, 40(a4)
	mv	s6, a4
	ld	s8, 48(a4)
	li	a3, 1
	snez	s0, a1
	sh	zero, 6(sp)
	sd	a2, 8(sp)
	sb	a3, 16(sp)
	sb	a0, 0(sp)
	sb	s0, 1(sp)
	sh	zero, 2(sp)
	sh	zero, 4(sp)
	addi	s3, sp, 17
	li	a2, 32
	mv	a0, s3
	mv	a1, s2
	call	memcpy
	sb	zero, 49(sp)
	sb	zero, 50(sp)
	sb	zero, 51(sp)
	sb	zero, 52(sp)
	sb	zero, 53(sp)
	sb	zero, 54(sp)
	sb	zero, 55(sp)
	sd	s8, 56(sp)
	and	s0, s0, s1
	sd	zero, 64(sp)
	sd	zero, 72(sp)
	beqz	s0, .Lnoise_BB67_8
	li	a0, 22
	j	.Lnoise_BB67_21
.Lnoise_BB67_8:
	seqz	a0, s4
	slli	a0, a0, 12
	add	a4, s4, a0
	addi	s4, sp, 16
.Lnoise_pcrel_hi51:
	auipc	a2, %pcrel_hi(.Lnoise_static.1)
	addi	a2, a2, %pcrel_lo(.Lnoise_pcrel_hi51)
	addi	a0, sp, 64
	mv	a1, s4
	li	a3, 0
	mv	a5, s7
	call	noise_noise_state_cipher_CipherState_decrypt
	lbu	a0, 64(sp)
	beqz	a0, .Lnoise_BB67_12
	lbu	a0, 65(sp)
	li	a1, 1
	blt	a1, a0, .Lnoise_BB67_15
	bnez	a0, .Lnoise_BB67_17
	li	a0, 17
	j	.Lnoise_BB67_21
.Lnoise_BB67_12:
	ld	s7, 72(sp)
	ld	s1, 8(sp)
	ld	s8, 56(sp)
	beqz	s1, .Lnoise_BB67_18
	remu	a2, s8, s1
	mv	a0, s6
	mv	a1, s5
	bnez	a2, .Lnoise_BB67_19
	mv	a0, s4
	call	noise_noise_state_cipher_CipherState_rekey
	mv	a1, s5
	mv	a0, s6
	ld	s1, 8(sp)
	ld	s8, 56(sp)
	j	.Lnoise_BB67_19
.Lnoise_BB67_15:
	li	a1, 2
	bne	a0, a1, .Lnoise_BB67_22
	li	a0, 15
	j	.Lnoise_BB67_21
.Lnoise_BB67_17:
	li	a0, 16
	j	.Lnoise_BB67_21
.Lnoise_BB67_18:
	mv	a0, s6
	mv	a1, s5
.Lnoise_BB67_19:
	lbu	a3, 16(sp)
	li	a2, 1
	sd	zero, 0(a1)
	sd	s7, 8(a1)
	bne	a3, a2, .Lnoise_BB67_22
	lbu	a1, 0(sp)
	lbu	a3, 1(sp)
	li	a6, 78
	li	a5, 111
	li	a4, 4
	sb	a2, 0(a0)
	sb	a4, 1(a0)
	sb	a5, 2(a0)
	sb	a6, 3(a0)
	andi	a3, a3, 1
	snez	a1, a1
	addi	a1, a1, 1
	sb	a1, 4(a0)
	sb	a3, 5(a0)
	li	a2, 32
	mv	s0, a0
	mv	a0, s2
	mv	a1, s3
	call	memcpy
	li	a0, 0
	srli	a6, s1, 56
	srli	a7, s1, 48
	srli	t0, s1, 40
	srli	a4, s1, 32
	srli	a5, s1, 24
	srli	a1, s1, 16
	srli	a2, s1, 8
	srli	t1, s8, 56
	srli	a3, s8, 48
	srli	t2, s8, 40
	sb	a1, 42(s0)
	sb	a5, 43(s0)
	sb	a4, 44(s0)
	sb	t0, 45(s0)
	srli	a1, s8, 32
	sb	zero, 38(s0)
	sb	zero, 39(s0)
	sb	s1, 40(s0)
	sb	a2, 41(s0)
	srli	a2, s8, 24
	sb	a3, 54(s0)
	sb	t1, 55(s0)
	srli	a3, s8, 16
	sb	a3, 50(s0)
	sb	a2, 51(s0)
	sb	a1, 52(s0)
	sb	t2, 53(s0)
	srli	a1, s8, 8
	sb	a7, 46(s0)
	sb	a6, 47(s0)
	sb	s8, 48(s0)
	sb	a1, 49(s0)
.Lnoise_BB67_21:
	ld	ra, 152(sp)
	ld	s0, 144(sp)
	ld	s1, 136(sp)
	ld	s2, 128(sp)
	ld	s3, 120(sp)
	ld	s4, 112(sp)
	ld	s5, 104(sp)
	ld	s6, 96(sp)
	ld	s7, 88(sp)
	ld	s8, 80(sp)
	.cfi_restore ra
	.cfi_restore s0
	.cfi_restore s1
	.cfi_restore s2
	.cfi_restore s3
	.cfi_restore s4
	.cfi_restore s5
	.cfi_restore s6
	.cfi_restore s7
	.cfi_restore s8
	addi	sp, sp, 160
	.cfi_def_cfa_offset 0
	ret
.Lnoise_BB67_22:
	.cfi_restore_state
	unimp
.Lnoise_func_end67:
	.size	noise_open, .Lnoise_func_end67-noise_open
	.cfi_endproc

	.section	.text.noise_datagram_seal,"ax",@progbits
	.globl	noise_datagram_seal
	.p2align	1
	.type	noise_datagram_seal,@function
noise_datagram_seal:
	.cfi_startproc
	addi	sp, sp, -176
	.cfi_def_cfa_offset 176
	sd	ra, 168(sp)
	sd	s0, 160(sp)
	sd	s1, 152(sp)
	sd	s2, 144(sp)
	sd	s3, 136(sp)
	sd	s4, 128(sp)
	sd	s5, 120(sp)
	sd	s6, 112(sp)
	sd	s7, 104(sp)
	sd	s8, 96(sp)
	sd	s9, 88(sp)
	sd	s10, 80(sp)
	.cfi_offset ra, -8
	.cfi_offset s0, -16
	.cfi_offset s1, -24
	.cfi_offset s2, -32
	.cfi_offset s3, -40
	.cfi_offset s4, -48
	.cfi_offset s5, -56
	.cfi_offset s6, -64
	.cfi_offset s7, -72
	.cfi_offset s8, -80
	.cfi_offset s9, -88
	.cfi_offset s10, -96
	.cfi_remember_state
	mv	a7, a0
	lw	s1, 0(a0)
	lui	a0, 321264
	addi	s0, a0, 1537
	li	a0, 23
	bne	s1, s0, .Lnoise_BB68_23
	lbu	s1, 4(a7)
	li	a6, 1
	beq	s1, a6, .Lnoise_BB68_4
	li	s0, 2
	bne	s1, s0, .Lnoise_BB68_23
	mv	s10, a4
	mv	s2, a3
	mv	s7, a1
	mv	s3, a2
	mv	s8, a5
	li	s4, 1
	li	a0, 1
	j	.Lnoise_BB68_5
.Lnoise_BB68_4:
	mv	s10, a4
	mv	s2, a3
	mv	s7, a1
	mv	s3, a2
	mv	s8, a5
	li	s4, 0
	li	a0, 0
.Lnoise_BB68_5:
	addi	s5, a7, 6
	lbu	a1, 5(a7)
	mv	s9, a7
	ld	s0, 40(a7)
	sh	zero, 6(sp)
	sh	zero, 8(sp)
	sh	zero, 10(sp)
	sh	zero, 12(sp)
	sh	zero, 14(sp)
	sb	a6, 16(sp)
	snez	s1, a1
	sb	a0, 0(sp)
	sb	s1, 1(sp)
	sh	zero, 2(sp)
	sh	zero, 4(sp)
	addi	s6, sp, 17
	li	a2, 32
	mv	a0, s6
	mv	a1, s5
	call	memcpy
	sb	zero, 49(sp)
	sb	zero, 50(sp)
	sb	zero, 51(sp)
	sb	zero, 52(sp)
	sb	zero, 53(sp)
	sb	zero, 54(sp)
	sb	zero, 55(sp)
	sd	s0, 56(sp)
	li	a1, 24
	li	a0, 18
	bltu	s10, a1, .Lnoise_BB68_23
	addi	s10, s10, -24
	bltu	s10, s3, .Lnoise_BB68_23
	and	a0, s4, s1
	beqz	a0, .Lnoise_BB68_9
	li	a0, 22
	j	.Lnoise_BB68_23
.Lnoise_BB68_9:
	mv	a2, s3
	lui	a0, 16
	addi	a0, a0, -17
	bgeu	a0, s3, .Lnoise_BB68_11
	li	a0, 11
	j	.Lnoise_BB68_23
.Lnoise_BB68_11:
	li	a0, -1
	beq	s0, a0, .Lnoise_BB68_15
	mv	a3, s7
	seqz	a0, s7
	seqz	a1, s2
	slli	a0, a0, 12
	slli	s7, a1, 12
	add	a1, a3, a0
	add	s7, s7, s2
	addi	s3, s7, 8
	sub	a4, s3, a1
	addi	s2, sp, 16
	bgeu	a4, a2, .Lnoise_BB68_16
	mv	s4, a2
	add	a0, a0, a2
	add	a3, a3, a0
	mv	a0, s3
.Lnoise_BB68_14:
	lbu	a2, 0(a1)
	addi	a1, a1, 1
	sb	a2, 0(a0)
	addi	a0, a0, 1
	bne	a1, a3, .Lnoise_BB68_14
	j	.Lnoise_BB68_17
.Lnoise_BB68_15:
	li	a0, 17
	j	.Lnoise_BB68_23
.Lnoise_BB68_16:
	mv	a0, s3
	mv	s4, a2
	call	memmove
.Lnoise_BB68_17:
	sd	zero, 64(sp)
	sd	zero, 72(sp)
.Lnoise_pcrel_hi52:
	auipc	a2, %pcrel_hi(.Lnoise_static.1)
	addi	a2, a2, %pcrel_lo(.Lnoise_pcrel_hi52)
	addi	a0, sp, 64
	mv	a1, s2
	li	a3, 0
	mv	a4, s3
	mv	a5, s4
	call	noise_noise_state_cipher_CipherState_encrypt
	lbu	a0, 64(sp)
	bnez	a0, .Lnoise_BB68_24
	ld	s4, 72(sp)
	ld	a2, 8(sp)
	ld	s3, 56(sp)
	mv	a0, s9
	mv	a7, s8
	beqz	a2, .Lnoise_BB68_21
	remu	a2, s3, a2
	bnez	a2, .Lnoise_BB68_21
	mv	a0, s2
	call	noise_noise_state_cipher_CipherState_rekey
	mv	a7, s8
	mv	a0, s9
	ld	s3, 56(sp)
.Lnoise_BB68_21:
	srli	a6, s0, 56
	srli	a3, s0, 8
	srli	a4, s0, 16
	srli	a5, s0, 24
	srli	s1, s0, 32
	srli	a2, s0, 40
	srli	a1, s0, 48
	sb	a5, 4(s7)
	sb	a4, 5(s7)
	sb	a3, 6(s7)
	sb	s0, 7(s7)
	lbu	a3, 16(sp)
	sb	a6, 0(s7)
	sb	a1, 1(s7)
	sb	a2, 2(s7)
	sb	s1, 3(s7)
	addi	s4, s4, 8
	li	a2, 1
	sd	zero, 0(a7)
	sd	s4, 8(a7)
	bne	a3, a2, .Lnoise_BB68_24
	lbu	a1, 0(sp)
	lbu	a3, 1(sp)
	li	a4, 78
	li	a5, 111
	li	s1, 6
	sb	a2, 0(a0)
	sb	s1, 1(a0)
	sb	a5, 2(a0)
	sb	a4, 3(a0)
	snez	a1, a1
	andi	a3, a3, 1
	addi	a1, a1, 1
	sb	a1, 4(a0)
	sb	a3, 5(a0)
	li	a2, 32
	mv	s0, a0
	mv	a0, s5
	mv	a1, s6
	call	memcpy
	li	a0, 0
	srli	a1, s3, 56
	srli	a2, s3, 48
	srli	a3, s3, 40
	srli	a4, s3, 32
	srli	a5, s3, 24
	sb	a2, 46(s0)
	sb	a1, 47(s0)
	srli	a1, s3, 16
	sb	a1, 42(s0)
	sb	a5, 43(s0)
	sb	a4, 44(s0)
	sb	a3, 45(s0)
	srli	a1, s3, 8
	sb	zero, 38(s0)
	sb	zero, 39(s0)
	sb	s3, 40(s0)
	sb	a1, 41(s0)
.Lnoise_BB68_23:
	ld	ra, 168(sp)
	ld	s0, 160(sp)
	ld	s1, 152(sp)
	ld	s2, 144(sp)
	ld	s3, 136(sp)
	ld	s4, 128(sp)
	ld	s5, 120(sp)
	ld	s6, 112(sp)
	ld	s7, 104(sp)
	ld	s8, 96(sp)
	ld	s9, 88(sp)
	ld	s10, 80(sp)
	.cfi_restore ra
	.cfi_restore s0
	.cfi_restore s1
	.cfi_restore s2
	.cfi_restore s3
	.cfi_restore s4
	.cfi_restore s5
	.cfi_restore s6
	.cfi_restore s7
	.cfi_restore s8
	.cfi_restore s9
	.cfi_restore s10
	addi	sp, sp, 176
	.cfi_def_cfa_offset 0
	ret
.Lnoise_BB68_24:
	.cfi_restore_state
	unimp
.Lnoise_func_end68:
	.size	noise_datagram_seal, .Lnoise_func_end68-noise_datagram_seal
	.cfi_endproc

	.section	.text.noise_datagram_seal_in_place,"ax",@progbits
	.globl	noise_datagram_seal_in_place
	.p2align	1
	.type	noise_datagram_seal_in_place,@function
noise_datagram_seal_in_place:
	.cfi_startproc
	addi	sp, sp, -176
	.cfi_def_cfa_offset 176
	sd	ra, 168(sp)
	sd	s0, 160(sp)
	sd	s1, 152(sp)
	sd	s2, 144(sp)
	sd	s3, 136(sp)
	sd	s4, 128(sp)
	sd	s5, 120(sp)
	sd	s6, 112(sp)
	sd	s7, 104(sp)
	sd	s8, 96(sp)
	sd	s9, 88(sp)
	.cfi_offset ra, -8
	.cfi_offset s0, -16
	.cfi_offset s1, -24
	.cfi_offset s2, -32
	.cfi_offset s3, -40
	.cfi_offset s4, -48
	.cfi_offset s5, -56
	.cfi_offset s6, -64
	.cfi_offset s7, -72
	.cfi_offset s8, -80
	.cfi_offset s9, -88
	.cfi_remember_state
	mv	a5, a0
	lw	s1, 0(a0)
	lui	a0, 321264
	addi	s0, a0, 1537
	li	a0, 23
	bne	s1, s0, .Lnoise_BB69_19
	lbu	s0, 4(a5)
	li	a6, 1
	beq	s0, a6, .Lnoise_BB69_4
	li	s1, 2
	bne	s0, s1, .Lnoise_BB69_19
	mv	s0, a2
	mv	s6, a1
	mv	s4, a3
	mv	s9, a4
	li	s2, 1
	li	a0, 1
	j	.Lnoise_BB69_5
.Lnoise_BB69_4:
	mv	s0, a2
	mv	s6, a1
	mv	s4, a3
	mv	s9, a4
	li	s2, 0
	li	a0, 0
.Lnoise_BB69_5:
	addi	s3, a5, 6
	lbu	a1, 5(a5)
	mv	s7, a5
	ld	s8, 40(a5)
	sh	zero, 14(sp)
	sh	zero, 16(sp)
	sh	zero, 18(sp)
	sh	zero, 20(sp)
	sh	zero, 22(sp)
	sb	a6, 24(sp)
	snez	s1, a1
	sb	a0, 8(sp)
	sb	s1, 9(sp)
	sh	zero, 10(sp)
	sh	zero, 12(sp)
	addi	s5, sp, 25
	li	a2, 32
	mv	a0, s5
	mv	a1, s3
	call	memcpy
	sb	zero, 57(sp)
	sb	zero, 58(sp)
	sb	zero, 59(sp)
	sb	zero, 60(sp)
	sb	zero, 61(sp)
	sb	zero, 62(sp)
	sb	zero, 63(sp)
	sd	s8, 64(sp)
	li	a1, 24
	li	a0, 18
	bltu	s0, a1, .Lnoise_BB69_19
	addi	s0, s0, -24
	bltu	s0, s4, .Lnoise_BB69_19
	and	a0, s2, s1
	beqz	a0, .Lnoise_BB69_9
	li	a0, 22
	j	.Lnoise_BB69_19
.Lnoise_BB69_9:
	lui	a0, 16
	addi	a0, a0, -17
	bgeu	a0, s4, .Lnoise_BB69_11
	li	a0, 11
	j	.Lnoise_BB69_19
.Lnoise_BB69_11:
	li	a0, -1
	beq	s8, a0, .Lnoise_BB69_18
	mv	s1, s9
	seqz	a0, s6
	addi	s2, sp, 24
	slli	a0, a0, 12
	add	s6, s6, a0
	addi	a4, s6, 8
	sd	zero, 72(sp)
	sd	zero, 80(sp)
.Lnoise_pcrel_hi53:
	auipc	a2, %pcrel_hi(.Lnoise_static.1)
	addi	a2, a2, %pcrel_lo(.Lnoise_pcrel_hi53)
	addi	a0, sp, 72
	mv	a1, s2
	mv	a5, s4
	li	a3, 0
	call	noise_noise_state_cipher_CipherState_encrypt
	lbu	a0, 72(sp)
	bnez	a0, .Lnoise_BB69_20
	ld	s9, 80(sp)
	ld	a2, 16(sp)
	ld	s4, 64(sp)
	mv	a0, s7
	mv	a1, s1
	beqz	a2, .Lnoise_BB69_16
	remu	a2, s4, a2
	bnez	a2, .Lnoise_BB69_16
	mv	a0, s2
	call	noise_noise_state_cipher_CipherState_rekey
	mv	a1, s1
	mv	a0, s7
	ld	s4, 64(sp)
.Lnoise_BB69_16:
	srli	a6, s8, 56
	srli	a3, s8, 8
	srli	a4, s8, 16
	srli	a5, s8, 24
	srli	s1, s8, 32
	srli	s0, s8, 40
	srli	a2, s8, 48
	sb	a5, 4(s6)
	sb	a4, 5(s6)
	sb	a3, 6(s6)
	sb	s8, 7(s6)
	lbu	a3, 24(sp)
	sb	a6, 0(s6)
	sb	a2, 1(s6)
	sb	s0, 2(s6)
	sb	s1, 3(s6)
	addi	s9, s9, 8
	li	a2, 1
	sd	zero, 0(a1)
	sd	s9, 8(a1)
	bne	a3, a2, .Lnoise_BB69_20
	lbu	a1, 8(sp)
	lbu	a3, 9(sp)
	li	a4, 78
	li	a5, 111
	li	s1, 6
	sb	a2, 0(a0)
	sb	s1, 1(a0)
	sb	a5, 2(a0)
	sb	a4, 3(a0)
	snez	a1, a1
	andi	a3, a3, 1
	addi	a1, a1, 1
	sb	a1, 4(a0)
	sb	a3, 5(a0)
	li	a2, 32
	mv	s0, a0
	mv	a0, s3
	mv	a1, s5
	call	memcpy
	li	a0, 0
	srli	a1, s4, 56
	srli	a2, s4, 48
	srli	a3, s4, 40
	srli	a4, s4, 32
	srli	a5, s4, 24
	sb	a2, 46(s0)
	sb	a1, 47(s0)
	srli	a1, s4, 16
	sb	a1, 42(s0)
	sb	a5, 43(s0)
	sb	a4, 44(s0)
	sb	a3, 45(s0)
	srli	a1, s4, 8
	sb	zero, 38(s0)
	sb	zero, 39(s0)
	sb	s4, 40(s0)
	sb	a1, 41(s0)
	j	.Lnoise_BB69_19
.Lnoise_BB69_18:
	li	a0, 17
.Lnoise_BB69_19:
	ld	ra, 168(sp)
	ld	s0, 160(sp)
	ld	s1, 152(sp)
	ld	s2, 144(sp)
	ld	s3, 136(sp)
	ld	s4, 128(sp)
	ld	s5, 120(sp)
	ld	s6, 112(sp)
	ld	s7, 104(sp)
	ld	s8, 96(sp)
	ld	s9, 88(sp)
	.cfi_restore ra
	.cfi_restore s0
	.cfi_restore s1
	.cfi_restore s2
	.cfi_restore s3
	.cfi_restore s4
	.cfi_restore s5
	.cfi_restore s6
	.cfi_restore s7
	.cfi_restore s8
	.cfi_restore s9
	addi	sp, sp, 176
	.cfi_def_cfa_offset 0
	ret
.Lnoise_BB69_20:
	.cfi_restore_state
	unimp
.Lnoise_func_end69:
	.size	noise_datagram_seal_in_place, .Lnoise_func_end69-noise_datagram_seal_in_place
	.cfi_endproc

	.section	.text.noise_seal,"ax",@progbits
	.globl	noise_seal
	.p2align	1
	.type	noise_seal,@function
noise_seal:
	.cfi_startproc
	addi	sp, sp, -176
	.cfi_def_cfa_offset 176
	sd	ra, 168(sp)
	sd	s0, 160(sp)
	sd	s1, 152(sp)
	sd	s2, 144(sp)
	sd	s3, 136(sp)
	sd	s4, 128(sp)
	sd	s5, 120(sp)
	sd	s6, 112(sp)
	sd	s7, 104(sp)
	sd	s8, 96(sp)
	sd	s9, 88(sp)
	sd	s10, 80(sp)
	.cfi_offset ra, -8
	.cfi_offset s0, -16
	.cfi_offset s1, -24
	.cfi_offset s2, -32
	.cfi_offset s3, -40
	.cfi_offset s4, -48
	.cfi_offset s5, -56
	.cfi_offset s6, -64
	.cfi_offset s7, -72
	.cfi_offset s8, -80
	.cfi_offset s9, -88
	.cfi_offset s10, -96
	.cfi_remember_state
	mv	a6, a0
	lw	s0, 0(a0)
	lui	a0, 321264
	addi	s1, a0, 769
	li	a0, 23
	bne	s0, s1, .Lnoise_BB70_22
	lbu	s0, 4(a6)
	li	s1, 1
	beq	s0, s1, .Lnoise_BB70_4
	li	s1, 2
	bne	s0, s1, .Lnoise_BB70_22
	li	s9, 1
	li	s0, 1
	li	s1, 16
	li	a0, 18
	bgeu	a4, s1, .Lnoise_BB70_5
	j	.Lnoise_BB70_22
.Lnoise_BB70_4:
	li	s9, 0
	li	s0, 0
	li	s1, 16
	li	a0, 18
	bltu	a4, s1, .Lnoise_BB70_22
.Lnoise_BB70_5:
	addi	a4, a4, -16
	bltu	a4, a2, .Lnoise_BB70_22
	mv	s3, a3
	mv	s8, a1
	mv	s7, a2
	mv	s5, a5
	addi	s2, a6, 6
	lbu	a0, 5(a6)
	ld	a1, 40(a6)
	mv	s6, a6
	ld	s10, 48(a6)
	li	a2, 1
	snez	s1, a0
	sh	zero, 6(sp)
	sd	a1, 8(sp)
	sb	a2, 16(sp)
	sb	s0, 0(sp)
	sb	s1, 1(sp)
	sh	zero, 2(sp)
	sh	zero, 4(sp)
	addi	s4, sp, 17
	li	a2, 32
	mv	a0, s4
	mv	a1, s2
	call	memcpy
	sb	zero, 49(sp)
	sb	zero, 50(sp)
	sb	zero, 51(sp)
	sb	zero, 52(sp)
	and	a0, s1, s9
	sb	zero, 53(sp)
	sb	zero, 54(sp)
	sb	zero, 55(sp)
	sd	s10, 56(sp)
	beqz	a0, .Lnoise_BB70_8
	li	a0, 22
	j	.Lnoise_BB70_22
.Lnoise_BB70_8:
	lui	a0, 16
	addi	a0, a0, -17
	bgeu	a0, s7, .Lnoise_BB70_10
	li	a0, 11
	j	.Lnoise_BB70_22
.Lnoise_BB70_10:
	li	a0, -1
	beq	s10, a0, .Lnoise_BB70_14
	mv	a2, s7
	seqz	a0, s8
	seqz	a1, s3
	slli	a0, a0, 12
	slli	s1, a1, 12
	add	a1, s8, a0
	add	s1, s1, s3
	sub	a3, s1, a1
	addi	s3, sp, 16
	bgeu	a3, s7, .Lnoise_BB70_15
	add	a0, a0, a2
	add	a0, a0, s8
	mv	a2, s1
.Lnoise_BB70_13:
	lbu	a3, 0(a1)
	addi	a1, a1, 1
	sb	a3, 0(a2)
	addi	a2, a2, 1
	bne	a1, a0, .Lnoise_BB70_13
	j	.Lnoise_BB70_16
.Lnoise_BB70_14:
	li	a0, 17
	j	.Lnoise_BB70_22
.Lnoise_BB70_15:
	mv	a0, s1
	call	memmove
.Lnoise_BB70_16:
	sd	zero, 64(sp)
	sd	zero, 72(sp)
.Lnoise_pcrel_hi54:
	auipc	a2, %pcrel_hi(.Lnoise_static.1)
	addi	a2, a2, %pcrel_lo(.Lnoise_pcrel_hi54)
	addi	a0, sp, 64
	mv	a1, s3
	li	a3, 0
	mv	a4, s1
	mv	a5, s7
	call	noise_noise_state_cipher_CipherState_encrypt
	lbu	a0, 64(sp)
	bnez	a0, .Lnoise_BB70_23
	ld	s7, 72(sp)
	ld	s1, 8(sp)
	ld	s8, 56(sp)
	mv	a0, s6
	mv	a1, s5
	beqz	s1, .Lnoise_BB70_20
	remu	a2, s8, s1
	bnez	a2, .Lnoise_BB70_20
	mv	a0, s3
	call	noise_noise_state_cipher_CipherState_rekey
	mv	a1, s5
	mv	a0, s6
	ld	s1, 8(sp)
	ld	s8, 56(sp)
.Lnoise_BB70_20:
	lbu	a3, 16(sp)
	li	a2, 1
	sd	zero, 0(a1)
	sd	s7, 8(a1)
	bne	a3, a2, .Lnoise_BB70_23
	lbu	a1, 0(sp)
	lbu	a3, 1(sp)
	li	a6, 78
	li	a5, 111
	li	a4, 3
	sb	a2, 0(a0)
	sb	a4, 1(a0)
	sb	a5, 2(a0)
	sb	a6, 3(a0)
	andi	a3, a3, 1
	snez	a1, a1
	addi	a1, a1, 1
	sb	a1, 4(a0)
	sb	a3, 5(a0)
	li	a2, 32
	mv	s0, a0
	mv	a0, s2
	mv	a1, s4
	call	memcpy
	li	a0, 0
	srli	a6, s1, 56
	srli	a7, s1, 48
	srli	t0, s1, 40
	srli	a4, s1, 32
	srli	a5, s1, 24
	srli	a1, s1, 16
	srli	a2, s1, 8
	srli	t1, s8, 56
	srli	a3, s8, 48
	srli	t2, s8, 40
	sb	a1, 42(s0)
	sb	a5, 43(s0)
	sb	a4, 44(s0)
	sb	t0, 45(s0)
	srli	a1, s8, 32
	sb	zero, 38(s0)
	sb	zero, 39(s0)
	sb	s1, 40(s0)
	sb	a2, 41(s0)
	srli	a2, s8, 24
	sb	a3, 54(s0)
	sb	t1, 55(s0)
	srli	a3, s8, 16
	sb	a3, 50(s0)
	sb	a2, 51(s0)
	sb	a1, 52(s0)
	sb	t2, 53(s0)
	srli	a1, s8, 8
	sb	a7, 46(s0)
	sb	a6, 47(s0)
	sb	s8, 48(s0)
	sb	a1, 49(s0)
.Lnoise_BB70_22:
	ld	ra, 168(sp)
	ld	s0, 160(sp)
	ld	s1, 152(sp)
	ld	s2, 144(sp)
	ld	s3, 136(sp)
	ld	s4, 128(sp)
	ld	s5, 120(sp)
	ld	s6, 112(sp)
	ld	s7, 104(sp)
	ld	s8, 96(sp)
	ld	s9, 88(sp)
	ld	s10, 80(sp)
	.cfi_restore ra
	.cfi_restore s0
	.cfi_restore s1
	.cfi_restore s2
	.cfi_restore s3
	.cfi_restore s4
	.cfi_restore s5
	.cfi_restore s6
	.cfi_restore s7
	.cfi_restore s8
	.cfi_restore s9
	.cfi_restore s10
	addi	sp, sp, 176
	.cfi_def_cfa_offset 0
	ret
.Lnoise_BB70_23:
	.cfi_restore_state
	unimp
.Lnoise_func_end70:
	.size	noise_seal, .Lnoise_func_end70-noise_seal
	.cfi_endproc

	.section	.text.noise_seal_in_place,"ax",@progbits
	.globl	noise_seal_in_place
	.p2align	1
	.type	noise_seal_in_place,@function
noise_seal_in_place:
	.cfi_startproc
	addi	sp, sp, -176
	.cfi_def_cfa_offset 176
	sd	ra, 168(sp)
	sd	s0, 160(sp)
	sd	s1, 152(sp)
	sd	s2, 144(sp)
	sd	s3, 136(sp)
	sd	s4, 128(sp)
	sd	s5, 120(sp)
	sd	s6, 112(sp)
	sd	s7, 104(sp)
	sd	s8, 96(sp)
	sd	s9, 88(sp)
	.cfi_offset ra, -8
	.cfi_offset s0, -16
	.cfi_offset s1, -24
	.cfi_offset s2, -32
	.cfi_offset s3, -40
	.cfi_offset s4, -48
	.cfi_offset s5, -56
	.cfi_offset s6, -64
	.cfi_offset s7, -72
	.cfi_offset s8, -80
	.cfi_offset s9, -88
	.cfi_remember_state
	mv	a5, a0
	lw	s1, 0(a0)
	lui	a0, 321264
	addi	s0, a0, 769
	li	a0, 23
	bne	s1, s0, .Lnoise_BB71_18
	lbu	s1, 4(a5)
	li	s0, 1
	beq	s1, s0, .Lnoise_BB71_4
	li	s0, 2
	bne	s1, s0, .Lnoise_BB71_18
	li	s9, 1
	li	s1, 1
	li	s0, 16
	li	a0, 18
	bgeu	a2, s0, .Lnoise_BB71_5
	j	.Lnoise_BB71_18
.Lnoise_BB71_4:
	li	s9, 0
	li	s1, 0
	li	s0, 16
	li	a0, 18
	bltu	a2, s0, .Lnoise_BB71_18
.Lnoise_BB71_5:
	addi	a2, a2, -16
	bltu	a2, a3, .Lnoise_BB71_18
	mv	s2, a1
	mv	s7, a3
	mv	s5, a4
	addi	s3, a5, 6
	lbu	a0, 5(a5)
	ld	a1, 40(a5)
	mv	s6, a5
	ld	s8, 48(a5)
	li	a2, 1
	snez	s0, a0
	sh	zero, 14(sp)
	sd	a1, 16(sp)
	sb	a2, 24(sp)
	sb	s1, 8(sp)
	sb	s0, 9(sp)
	sh	zero, 10(sp)
	sh	zero, 12(sp)
	addi	s4, sp, 25
	li	a2, 32
	mv	a0, s4
	mv	a1, s3
	call	memcpy
	sb	zero, 57(sp)
	sb	zero, 58(sp)
	sb	zero, 59(sp)
	sb	zero, 60(sp)
	and	a0, s0, s9
	sb	zero, 61(sp)
	sb	zero, 62(sp)
	sb	zero, 63(sp)
	sd	s8, 64(sp)
	beqz	a0, .Lnoise_BB71_8
	li	a0, 22
	j	.Lnoise_BB71_18
.Lnoise_BB71_8:
	lui	a0, 16
	addi	a0, a0, -17
	bgeu	a0, s7, .Lnoise_BB71_10
	li	a0, 11
	j	.Lnoise_BB71_18
.Lnoise_BB71_10:
	li	a0, -1
	beq	s8, a0, .Lnoise_BB71_17
	seqz	a0, s2
	slli	a0, a0, 12
	add	a4, s2, a0
	addi	s2, sp, 24
	sd	zero, 72(sp)
	sd	zero, 80(sp)
.Lnoise_pcrel_hi55:
	auipc	a2, %pcrel_hi(.Lnoise_static.1)
	addi	a2, a2, %pcrel_lo(.Lnoise_pcrel_hi55)
	addi	a0, sp, 72
	mv	a1, s2
	mv	a5, s7
	li	a3, 0
	call	noise_noise_state_cipher_CipherState_encrypt
	lbu	a0, 72(sp)
	bnez	a0, .Lnoise_BB71_19
	ld	s7, 80(sp)
	ld	s1, 16(sp)
	ld	s8, 64(sp)
	mv	a0, s6
	mv	a1, s5
	beqz	s1, .Lnoise_BB71_15
	remu	a2, s8, s1
	bnez	a2, .Lnoise_BB71_15
	mv	a0, s2
	call	noise_noise_state_cipher_CipherState_rekey
	mv	a1, s5
	mv	a0, s6
	ld	s1, 16(sp)
	ld	s8, 64(sp)
.Lnoise_BB71_15:
	lbu	a3, 24(sp)
	li	a2, 1
	sd	zero, 0(a1)
	sd	s7, 8(a1)
	bne	a3, a2, .Lnoise_BB71_19
	lbu	a1, 8(sp)
	lbu	a3, 9(sp)
	li	a6, 78
	li	a5, 111
	li	a4, 3
	sb	a2, 0(a0)
	sb	a4, 1(a0)
	sb	a5, 2(a0)
	sb	a6, 3(a0)
	andi	a3, a3, 1
	snez	a1, a1
	addi	a1, a1, 1
	sb	a1, 4(a0)
	sb	a3, 5(a0)
	li	a2, 32
	mv	s0, a0
	mv	a0, s3
	mv	a1, s4
	call	memcpy
	li	a0, 0
	srli	a6, s1, 56
	srli	a7, s1, 48
	srli	t0, s1, 40
	srli	a4, s1, 32
	srli	a5, s1, 24
	srli	a1, s1, 16
	srli	a2, s1, 8
	srli	t1, s8, 56
	srli	a3, s8, 48
	srli	t2, s8, 40
	sb	a1, 42(s0)
	sb	a5, 43(s0)
	sb	a4, 44(s0)
	sb	t0, 45(s0)
	srli	a1, s8, 32
	sb	zero, 38(s0)
	sb	zero, 39(s0)
	sb	s1, 40(s0)
	sb	a2, 41(s0)
	srli	a2, s8, 24
	sb	a3, 54(s0)
	sb	t1, 55(s0)
	srli	a3, s8, 16
	sb	a3, 50(s0)
	sb	a2, 51(s0)
	sb	a1, 52(s0)
	sb	t2, 53(s0)
	srli	a1, s8, 8
	sb	a7, 46(s0)
	sb	a6, 47(s0)
	sb	s8, 48(s0)
	sb	a1, 49(s0)
	j	.Lnoise_BB71_18
.Lnoise_BB71_17:
	li	a0, 17
.Lnoise_BB71_18:
	ld	ra, 168(sp)
	ld	s0, 160(sp)
	ld	s1, 152(sp)
	ld	s2, 144(sp)
	ld	s3, 136(sp)
	ld	s4, 128(sp)
	ld	s5, 120(sp)
	ld	s6, 112(sp)
	ld	s7, 104(sp)
	ld	s8, 96(sp)
	ld	s9, 88(sp)
	.cfi_restore ra
	.cfi_restore s0
	.cfi_restore s1
	.cfi_restore s2
	.cfi_restore s3
	.cfi_restore s4
	.cfi_restore s5
	.cfi_restore s6
	.cfi_restore s7
	.cfi_restore s8
	.cfi_restore s9
	addi	sp, sp, 176
	.cfi_def_cfa_offset 0
	ret
.Lnoise_BB71_19:
	.cfi_restore_state
	unimp
.Lnoise_func_end71:
	.size	noise_seal_in_place, .Lnoise_func_end71-noise_seal_in_place
	.cfi_endproc

	.section	.text.noise_sentence,"ax",@progbits
	.globl	noise_sentence
	.p2align	1
	.type	noise_sentence,@function
noise_sentence:
	.cfi_startproc
	sext.w	a0, a0
	li	a2, 45
	bltu	a2, a0, .Lnoise_BB72_2
	slli	a2, a0, 3
.Lnoise_pcrel_hi57:
	auipc	a3, %pcrel_hi(.Lnoise_switch.table.noise_sentence)
	slli	a0, a0, 2
	addi	a3, a3, %pcrel_lo(.Lnoise_pcrel_hi57)
	add	a2, a2, a3
.Lnoise_pcrel_hi58:
	auipc	a3, %pcrel_hi(.Lnoise_switch.table.noise_sentence.198.rel)
	addi	a3, a3, %pcrel_lo(.Lnoise_pcrel_hi58)
	add	a0, a0, a3
	lw	a4, 0(a0)
	ld	a0, 0(a2)
	add	a2, a3, a4
	sd	a2, 0(a1)
	ret
.Lnoise_BB72_2:
.Lnoise_pcrel_hi56:
	auipc	a2, %pcrel_hi(.Lnoise_static.47)
	addi	a2, a2, %pcrel_lo(.Lnoise_pcrel_hi56)
	li	a0, 41
	sd	a2, 0(a1)
	ret
.Lnoise_func_end72:
	.size	noise_sentence, .Lnoise_func_end72-noise_sentence
	.cfi_endproc

	.section	.text.noise_hash,"ax",@progbits
	.globl	noise_hash
	.p2align	1
	.type	noise_hash,@function
noise_hash:
	.cfi_startproc
	addi	sp, sp, -1184
	.cfi_def_cfa_offset 1184
	sd	ra, 1176(sp)
	sd	s0, 1168(sp)
	sd	s1, 1160(sp)
	.cfi_offset ra, -8
	.cfi_offset s0, -16
	.cfi_offset s1, -24
	.cfi_remember_state
	mv	s0, a1
	mv	s1, a0
	addi	a0, sp, 288
	li	a2, 872
	li	a1, 0
	call	memset
	lw	a0, 0(s1)
	lui	a1, 321264
	addi	a1, a1, 257
	bne	a0, a1, .Lnoise_BB73_7
	lhu	a2, 420(s1)
	li	a0, 416
	bltu	a0, a2, .Lnoise_BB73_7
	lbu	a0, 846(s1)
	li	a1, 8
	bltu	a1, a0, .Lnoise_BB73_7
	lbu	a0, 557(s1)
	li	a1, 9
	bltu	a1, a0, .Lnoise_BB73_7
	addi	a1, s1, 4
	addi	a0, sp, 8
	call	noise_noise_c_patterns_pattern_of
	lbu	a0, 8(sp)
	bnez	a0, .Lnoise_BB73_7
	addi	a2, sp, 16
	addi	a0, sp, 288
	mv	a1, s1
	call	noise_noise_c_from_c_restored
	lbu	a0, 288(sp)
	li	a1, 1
	bne	a0, a1, .Lnoise_BB73_7
	addi	a1, s1, 1399
	li	a2, 32
	mv	a0, s0
	call	memmove
	li	a0, 0
	ld	ra, 1176(sp)
	ld	s0, 1168(sp)
	ld	s1, 1160(sp)
	.cfi_restore ra
	.cfi_restore s0
	.cfi_restore s1
	addi	sp, sp, 1184
	.cfi_def_cfa_offset 0
	ret
.Lnoise_BB73_7:
	.cfi_restore_state
	li	a0, 23
	ld	ra, 1176(sp)
	ld	s0, 1168(sp)
	ld	s1, 1160(sp)
	.cfi_restore ra
	.cfi_restore s0
	.cfi_restore s1
	addi	sp, sp, 1184
	.cfi_def_cfa_offset 0
	ret
.Lnoise_func_end73:
	.size	noise_hash, .Lnoise_func_end73-noise_hash
	.cfi_endproc

	.section	.text.noise_message_len,"ax",@progbits
	.globl	noise_message_len
	.p2align	1
	.type	noise_message_len,@function
noise_message_len:
	.cfi_startproc
	addi	sp, sp, -1200
	.cfi_def_cfa_offset 1200
	sd	ra, 1192(sp)
	sd	s0, 1184(sp)
	sd	s1, 1176(sp)
	sd	s2, 1168(sp)
	.cfi_offset ra, -8
	.cfi_offset s0, -16
	.cfi_offset s1, -24
	.cfi_offset s2, -32
	.cfi_remember_state
	mv	s2, a2
	mv	s1, a1
	mv	s0, a0
	addi	a0, sp, 296
	li	a2, 872
	li	a1, 0
	call	memset
	lw	a0, 0(s0)
	lui	a1, 321264
	addi	a1, a1, 257
	bne	a0, a1, .Lnoise_BB74_5
	lhu	a2, 420(s0)
	li	a0, 416
	bltu	a0, a2, .Lnoise_BB74_5
	lbu	a0, 846(s0)
	li	a1, 8
	bltu	a1, a0, .Lnoise_BB74_5
	lbu	a0, 557(s0)
	li	a1, 9
	bltu	a1, a0, .Lnoise_BB74_5
	addi	a1, s0, 4
	addi	a0, sp, 16
	call	noise_noise_c_patterns_pattern_of
	lbu	a0, 16(sp)
	beqz	a0, .Lnoise_BB74_7
.Lnoise_BB74_5:
	li	a0, 23
.Lnoise_BB74_6:
	ld	ra, 1192(sp)
	ld	s0, 1184(sp)
	ld	s1, 1176(sp)
	ld	s2, 1168(sp)
	.cfi_restore ra
	.cfi_restore s0
	.cfi_restore s1
	.cfi_restore s2
	addi	sp, sp, 1200
	.cfi_def_cfa_offset 0
	ret
.Lnoise_BB74_7:
	.cfi_restore_state
	.cfi_remember_state
	addi	a2, sp, 24
	addi	a0, sp, 296
	mv	a1, s0
	call	noise_noise_c_from_c_restored
	lbu	a0, 296(sp)
	li	a1, 1
	bne	a0, a1, .Lnoise_BB74_13
	lbu	a0, 993(sp)
	andi	a1, a0, 1
	li	a0, 29
	bnez	a1, .Lnoise_BB74_6
	ld	a2, 568(sp)
	lbu	a1, 992(sp)
	beq	a2, a1, .Lnoise_BB74_6
	lbu	a2, 608(sp)
	seqz	a2, a2
	xor	a1, a1, a2
	andi	a1, a1, 1
	beqz	a1, .Lnoise_BB74_6
	lhu	a1, 1048(sp)
	lui	a2, 16
	addi	a2, a2, -1
	xor	a2, a2, a1
	bltu	a2, s1, .Lnoise_BB74_6
	li	a0, 0
	add	a1, a1, s1
	sd	a1, 0(s2)
	ld	ra, 1192(sp)
	ld	s0, 1184(sp)
	ld	s1, 1176(sp)
	ld	s2, 1168(sp)
	.cfi_restore ra
	.cfi_restore s0
	.cfi_restore s1
	.cfi_restore s2
	addi	sp, sp, 1200
	.cfi_def_cfa_offset 0
	ret
.Lnoise_BB74_13:
	.cfi_restore_state
	li	a0, 23
	ld	ra, 1192(sp)
	ld	s0, 1184(sp)
	ld	s1, 1176(sp)
	ld	s2, 1168(sp)
	.cfi_restore ra
	.cfi_restore s0
	.cfi_restore s1
	.cfi_restore s2
	addi	sp, sp, 1200
	.cfi_def_cfa_offset 0
	ret
.Lnoise_func_end74:
	.size	noise_message_len, .Lnoise_func_end74-noise_message_len
	.cfi_endproc

	.section	.text.noise_remote_static,"ax",@progbits
	.globl	noise_remote_static
	.p2align	1
	.type	noise_remote_static,@function
noise_remote_static:
	.cfi_startproc
	addi	sp, sp, -1216
	.cfi_def_cfa_offset 1216
	sd	ra, 1208(sp)
	sd	s0, 1200(sp)
	sd	s1, 1192(sp)
	.cfi_offset ra, -8
	.cfi_offset s0, -16
	.cfi_offset s1, -24
	.cfi_remember_state
	mv	s0, a1
	mv	s1, a0
	addi	a0, sp, 320
	li	a2, 872
	li	a1, 0
	call	memset
	lw	a0, 0(s1)
	lui	a1, 321264
	addi	a1, a1, 257
	bne	a0, a1, .Lnoise_BB75_8
	lhu	a2, 420(s1)
	li	a0, 416
	bltu	a0, a2, .Lnoise_BB75_8
	lbu	a0, 846(s1)
	li	a1, 8
	bltu	a1, a0, .Lnoise_BB75_8
	lbu	a0, 557(s1)
	li	a1, 9
	bltu	a1, a0, .Lnoise_BB75_8
	addi	a1, s1, 4
	addi	a0, sp, 40
	call	noise_noise_c_patterns_pattern_of
	lbu	a0, 40(sp)
	bnez	a0, .Lnoise_BB75_8
	addi	a2, sp, 48
	addi	a0, sp, 320
	mv	a1, s1
	call	noise_noise_c_from_c_restored
	lbu	a6, 673(sp)
	lhu	a1, 674(sp)
	lhu	a2, 676(sp)
	lhu	t0, 678(sp)
	lhu	t1, 680(sp)
	lhu	a5, 682(sp)
	lhu	s1, 684(sp)
	lhu	a0, 686(sp)
	slli	a2, a2, 16
	or	a7, a2, a1
	lhu	a2, 688(sp)
	lhu	a1, 690(sp)
	lhu	a3, 692(sp)
	lhu	a4, 694(sp)
	slli	t0, t0, 32
	slli	t1, t1, 48
	slli	s1, s1, 16
	slli	a0, a0, 32
	slli	a2, a2, 48
	slli	a3, a3, 16
	or	t0, t1, t0
	or	t1, s1, a5
	or	a0, a0, a2
	or	a1, a1, a3
	lhu	a2, 696(sp)
	lhu	a3, 698(sp)
	lhu	s1, 700(sp)
	lhu	a5, 702(sp)
	slli	a4, a4, 32
	slli	a2, a2, 48
	or	a2, a2, a4
	lhu	a4, 704(sp)
	slli	s1, s1, 16
	or	a3, a3, s1
	slli	a5, a5, 32
	slli	a4, a4, 48
	or	a4, a4, a5
	or	a5, t0, a7
	or	a0, a0, t1
	or	a2, a2, a1
	lbu	s1, 320(sp)
	or	a3, a3, a4
	li	a1, 1
	sd	a5, 8(sp)
	sd	a0, 16(sp)
	sd	a2, 24(sp)
	sd	a3, 32(sp)
	bne	s1, a1, .Lnoise_BB75_8
	bne	a6, a1, .Lnoise_BB75_9
	ld	a0, 8(sp)
	ld	a1, 16(sp)
	ld	a2, 24(sp)
	ld	a3, 32(sp)
	sd	a0, 320(sp)
	sd	a1, 328(sp)
	sd	a2, 336(sp)
	sd	a3, 344(sp)
	j	.Lnoise_BB75_10
.Lnoise_BB75_8:
	li	a0, 23
	ld	ra, 1208(sp)
	ld	s0, 1200(sp)
	ld	s1, 1192(sp)
	.cfi_restore ra
	.cfi_restore s0
	.cfi_restore s1
	addi	sp, sp, 1216
	.cfi_def_cfa_offset 0
	ret
.Lnoise_BB75_9:
	.cfi_restore_state
	sd	zero, 320(sp)
	sd	zero, 328(sp)
	sd	zero, 336(sp)
	sd	zero, 344(sp)
.Lnoise_BB75_10:
	sb	a6, 0(s0)
	ld	a0, 320(sp)
	ld	a1, 328(sp)
	ld	a2, 336(sp)
	ld	a3, 344(sp)
	sd	a0, 40(sp)
	sd	a1, 48(sp)
	sd	a2, 56(sp)
	sd	a3, 64(sp)
	addi	a0, s0, 1
	addi	a1, sp, 40
	li	a2, 32
	call	memcpy
	li	a0, 0
	ld	ra, 1208(sp)
	ld	s0, 1200(sp)
	ld	s1, 1192(sp)
	.cfi_restore ra
	.cfi_restore s0
	.cfi_restore s1
	addi	sp, sp, 1216
	.cfi_def_cfa_offset 0
	ret
.Lnoise_func_end75:
	.size	noise_remote_static, .Lnoise_func_end75-noise_remote_static
	.cfi_endproc

	.section	.text.noise_stage,"ax",@progbits
	.globl	noise_stage
	.p2align	1
	.type	noise_stage,@function
noise_stage:
	.cfi_startproc
	addi	sp, sp, -1184
	.cfi_def_cfa_offset 1184
	sd	ra, 1176(sp)
	sd	s0, 1168(sp)
	sd	s1, 1160(sp)
	.cfi_offset ra, -8
	.cfi_offset s0, -16
	.cfi_offset s1, -24
	.cfi_remember_state
	mv	s0, a1
	mv	s1, a0
	addi	a0, sp, 288
	li	a2, 872
	li	a1, 0
	call	memset
	lw	a0, 0(s1)
	lui	a1, 321264
	addi	a1, a1, 257
	bne	a0, a1, .Lnoise_BB76_7
	lhu	a2, 420(s1)
	li	a0, 416
	bltu	a0, a2, .Lnoise_BB76_7
	lbu	a0, 846(s1)
	li	a1, 8
	bltu	a1, a0, .Lnoise_BB76_7
	lbu	a0, 557(s1)
	li	a1, 9
	bltu	a1, a0, .Lnoise_BB76_7
	addi	a1, s1, 4
	addi	a0, sp, 8
	call	noise_noise_c_patterns_pattern_of
	lbu	a0, 8(sp)
	bnez	a0, .Lnoise_BB76_7
	addi	a2, sp, 16
	addi	a0, sp, 288
	mv	a1, s1
	call	noise_noise_c_from_c_restored
	lbu	a0, 288(sp)
	li	a1, 1
	bne	a0, a1, .Lnoise_BB76_7
	li	a0, 0
	lbu	a1, 600(sp)
	lbu	a2, 984(sp)
	ld	a3, 560(sp)
	lbu	a4, 985(sp)
	seqz	a1, a1
	xor	a1, a1, a2
	andi	a1, a1, 1
	sb	a3, 0(s0)
	sb	a2, 1(s0)
	sb	a4, 2(s0)
	sb	a1, 3(s0)
	ld	ra, 1176(sp)
	ld	s0, 1168(sp)
	ld	s1, 1160(sp)
	.cfi_restore ra
	.cfi_restore s0
	.cfi_restore s1
	addi	sp, sp, 1184
	.cfi_def_cfa_offset 0
	ret
.Lnoise_BB76_7:
	.cfi_restore_state
	li	a0, 23
	ld	ra, 1176(sp)
	ld	s0, 1168(sp)
	ld	s1, 1160(sp)
	.cfi_restore ra
	.cfi_restore s0
	.cfi_restore s1
	addi	sp, sp, 1184
	.cfi_def_cfa_offset 0
	ret
.Lnoise_func_end76:
	.size	noise_stage, .Lnoise_func_end76-noise_stage
	.cfi_endproc

	.section	.text.noise_read,"ax",@progbits
	.globl	noise_read
	.p2align	1
	.type	noise_read,@function
noise_read:
	.cfi_startproc
	addi	sp, sp, -16
	.cfi_def_cfa_offset 16
	sd	ra, 8(sp)
	sd	s0, 0(sp)
	.cfi_offset ra, -8
	.cfi_offset s0, -16
	mv	s0, a0
	seqz	a0, a1
	slli	a0, a0, 12
	add	a1, a1, a0
	mv	a0, s0
	call	noise_noise_c_messages_read_next
	addi	a2, a0, -15
	li	a1, 1
	bltu	a1, a2, .Lnoise_BB77_2
	sb	a1, 423(s0)
.Lnoise_BB77_2:
	ld	ra, 8(sp)
	ld	s0, 0(sp)
	.cfi_restore ra
	.cfi_restore s0
	addi	sp, sp, 16
	.cfi_def_cfa_offset 0
	ret
.Lnoise_func_end77:
	.size	noise_read, .Lnoise_func_end77-noise_read
	.cfi_endproc

	.section	.text.noise_try_read,"ax",@progbits
	.globl	noise_try_read
	.p2align	1
	.type	noise_try_read,@function
noise_try_read:
	.cfi_startproc
	seqz	a4, a1
	slli	a4, a4, 12
	add	a1, a1, a4
	tail	noise_noise_c_messages_read_next
.Lnoise_func_end78:
	.size	noise_try_read, .Lnoise_func_end78-noise_try_read
	.cfi_endproc

	.section	.text.noise_set_psk,"ax",@progbits
	.globl	noise_set_psk
	.p2align	1
	.type	noise_set_psk,@function
noise_set_psk:
	.cfi_startproc
	addi	sp, sp, -496
	.cfi_def_cfa_offset 496
	sd	ra, 488(sp)
	sd	s0, 480(sp)
	sd	s1, 472(sp)
	sd	s2, 464(sp)
	sd	s3, 456(sp)
	sd	s4, 448(sp)
	sd	s5, 440(sp)
	.cfi_offset ra, -8
	.cfi_offset s0, -16
	.cfi_offset s1, -24
	.cfi_offset s2, -32
	.cfi_offset s3, -40
	.cfi_offset s4, -48
	.cfi_offset s5, -56
	addi	sp, sp, -1584
	.cfi_def_cfa_offset 2080
	.cfi_remember_state
	mv	s4, a1
	mv	s5, a0
	addi	a0, sp, 1152
	li	a2, 872
	li	a1, 0
	call	memset
	lw	a0, 0(s5)
	lui	a1, 321264
	addi	a1, a1, 257
	bne	a0, a1, .Lnoise_BB79_8
	lhu	a2, 420(s5)
	li	a0, 416
	bltu	a0, a2, .Lnoise_BB79_8
	lbu	a0, 846(s5)
	li	a1, 8
	bltu	a1, a0, .Lnoise_BB79_8
	lbu	a0, 557(s5)
	li	a1, 9
	bltu	a1, a0, .Lnoise_BB79_8
	addi	a1, s5, 4
	addi	a0, sp, 872
	call	noise_noise_c_patterns_pattern_of
	lbu	a0, 872(sp)
	bnez	a0, .Lnoise_BB79_8
	addi	a2, sp, 880
	addi	a0, sp, 1152
	mv	a1, s5
	call	noise_noise_c_from_c_restored
	lbu	s1, 1152(sp)
	addi	a1, sp, 1160
	addi	a0, sp, 8
	li	a2, 864
	call	memcpy
	li	a0, 1
	bne	s1, a0, .Lnoise_BB79_8
	addi	a0, sp, 1152
	addi	a1, sp, 8
	li	a2, 864
	addi	s1, sp, 1152
	call	memcpy
	ld	a1, 1416(sp)
	lbu	a2, 1840(sp)
	li	a0, 0
	sub	a1, a1, a2
	beqz	a1, .Lnoise_BB79_16
	slli	a3, a2, 3
	slli	a2, a2, 4
	add	a2, a2, a3
	add	a2, a2, s1
	addi	s1, a2, 72
	j	.Lnoise_BB79_11
.Lnoise_BB79_8:
	li	a0, 23
.Lnoise_BB79_9:
	addi	sp, sp, 1584
	.cfi_def_cfa_offset 496
	ld	ra, 488(sp)
	ld	s0, 480(sp)
	ld	s1, 472(sp)
	ld	s2, 464(sp)
	ld	s3, 456(sp)
	ld	s4, 448(sp)
	ld	s5, 440(sp)
	.cfi_restore ra
	.cfi_restore s0
	.cfi_restore s1
	.cfi_restore s2
	.cfi_restore s3
	.cfi_restore s4
	.cfi_restore s5
	addi	sp, sp, 496
	.cfi_def_cfa_offset 0
	ret
.Lnoise_BB79_10:
	.cfi_restore_state
	addi	s1, s1, 24
	addi	a1, a1, -1
	add	a0, a0, a6
	beqz	a1, .Lnoise_BB79_16
.Lnoise_BB79_11:
	li	a6, 0
	ld	a4, 16(s1)
	mv	a2, s1
.Lnoise_BB79_12:
	mv	a5, a2
.Lnoise_BB79_13:
	beqz	a4, .Lnoise_BB79_10
	lbu	s0, 0(a5)
	addi	a2, a5, 1
	li	a3, 6
	addi	a4, a4, -1
	mv	a5, a2
	bne	s0, a3, .Lnoise_BB79_13
	addi	a6, a6, 1
	j	.Lnoise_BB79_12
.Lnoise_BB79_16:
	ld	a1, 1824(sp)
	ld	a2, 1832(sp)
	sub	a1, a1, a2
	li	a2, 9
	bltu	a2, a1, .Lnoise_BB79_20
	bne	a1, a0, .Lnoise_BB79_19
	li	a0, 8
	j	.Lnoise_BB79_9
.Lnoise_BB79_19:
	addi	a0, s5, 558
	addi	s2, s5, 590
	li	a2, 32
	mv	a1, s2
	call	memcpy
	addi	s3, s5, 622
	li	a2, 32
	mv	a0, s2
	mv	a1, s3
	call	memcpy
	addi	s2, s5, 654
	li	a2, 32
	mv	a0, s3
	mv	a1, s2
	call	memcpy
	addi	s3, s5, 686
	li	a2, 32
	mv	a0, s2
	mv	a1, s3
	call	memcpy
	addi	s2, s5, 718
	li	a2, 32
	mv	a0, s3
	mv	a1, s2
	call	memcpy
	addi	s3, s5, 750
	li	a2, 32
	mv	a0, s2
	mv	a1, s3
	call	memcpy
	addi	s2, s5, 782
	li	a2, 32
	mv	a0, s3
	mv	a1, s2
	call	memcpy
	addi	s3, s5, 814
	li	a2, 32
	mv	a0, s2
	mv	a1, s3
	call	memcpy
	li	a2, 32
	mv	a0, s3
	mv	a1, s4
	call	memmove
	li	a0, 0
	lbu	a1, 557(s5)
	addi	a1, a1, 1
	sb	a1, 557(s5)
	j	.Lnoise_BB79_9
.Lnoise_BB79_20:
	unimp
.Lnoise_func_end79:
	.size	noise_set_psk, .Lnoise_func_end79-noise_set_psk
	.cfi_endproc

	.section	.rodata.cst8,"aM",@progbits,8
	.p2align	3, 0x0
.Lnoise_CPI80_0:
	.quad	-4942790177982912921
.Lnoise_CPI80_1:
	.quad	-6534734903820487822
.Lnoise_CPI80_2:
	.quad	-7276294671082564993
.Lnoise_CPI80_3:
	.quad	6620516960021240235
	.section	.text.noise_start,"ax",@progbits
	.globl	noise_start
	.p2align	1
	.type	noise_start,@function
noise_start:
	.cfi_startproc
	addi	sp, sp, -2032
	.cfi_def_cfa_offset 2032
	sd	ra, 2024(sp)
	sd	s0, 2016(sp)
	sd	s1, 2008(sp)
	sd	s2, 2000(sp)
	sd	s3, 1992(sp)
	sd	s4, 1984(sp)
	sd	s5, 1976(sp)
	sd	s6, 1968(sp)
	sd	s7, 1960(sp)
	sd	s8, 1952(sp)
	sd	s9, 1944(sp)
	sd	s10, 1936(sp)
	sd	s11, 1928(sp)
	.cfi_offset ra, -8
	.cfi_offset s0, -16
	.cfi_offset s1, -24
	.cfi_offset s2, -32
	.cfi_offset s3, -40
	.cfi_offset s4, -48
	.cfi_offset s5, -56
	.cfi_offset s6, -64
	.cfi_offset s7, -72
	.cfi_offset s8, -80
	.cfi_offset s9, -88
	.cfi_offset s10, -96
	.cfi_offset s11, -104
	addi	sp, sp, -1216
	.cfi_def_cfa_offset 3248
	.cfi_remember_state
	mv	s7, a5
	mv	s8, a4
	mv	s9, a3
	mv	s3, a2
	mv	s5, a1
	mv	s0, a0
	seqz	s6, a1
	sd	zero, 240(sp)
	sd	zero, 248(sp)
	sd	zero, 256(sp)
	sd	zero, 264(sp)
	sd	zero, 208(sp)
	sd	zero, 216(sp)
	sd	zero, 224(sp)
	sd	zero, 232(sp)
	sd	zero, 144(sp)
	sd	zero, 152(sp)
	sd	zero, 160(sp)
	sd	zero, 168(sp)
	sd	zero, 176(sp)
	sd	zero, 184(sp)
	sd	zero, 192(sp)
	sd	zero, 200(sp)
	sd	zero, 104(sp)
	sd	zero, 112(sp)
	sd	zero, 120(sp)
	sd	zero, 128(sp)
	slli	s6, s6, 12
	add	s4, a1, s6
	sw	zero, 136(sp)
	sh	zero, 140(sp)
	sb	zero, 142(sp)
	addi	a0, sp, 272
	mv	a1, s4
	call	noise_noise_c_patterns_pattern_of
	lbu	a0, 272(sp)
	beqz	a0, .Lnoise_BB80_2
	lw	a0, 276(sp)
	j	.Lnoise_BB80_102
.Lnoise_BB80_2:
	srli	a0, s8, 16
	beqz	a0, .Lnoise_BB80_4
	li	a0, 24
	j	.Lnoise_BB80_102
.Lnoise_BB80_4:
	lbu	s10, 133(s7)
	li	a0, 9
	bgeu	a0, s10, .Lnoise_BB80_6
	li	a0, 8
	j	.Lnoise_BB80_102
.Lnoise_BB80_6:
	sd	s0, 88(sp)
	sd	zero, 752(sp)
	sd	zero, 760(sp)
	sd	zero, 768(sp)
	sd	zero, 776(sp)
	sd	zero, 720(sp)
	sd	zero, 728(sp)
	sd	zero, 736(sp)
	sd	zero, 744(sp)
	sd	zero, 656(sp)
	sd	zero, 664(sp)
	sd	zero, 672(sp)
	sd	zero, 680(sp)
	sd	zero, 688(sp)
	sd	zero, 696(sp)
	sd	zero, 704(sp)
	sd	zero, 712(sp)
	sd	zero, 616(sp)
	sd	zero, 624(sp)
	sd	zero, 632(sp)
	sd	zero, 640(sp)
	sw	zero, 648(sp)
	sh	zero, 652(sp)
	sb	zero, 654(sp)
	lbu	a0, 67(s7)
	sd	zero, 1448(sp)
	sd	zero, 1456(sp)
	sd	zero, 1464(sp)
	sd	zero, 1472(sp)
	sd	a0, 80(sp)
	beqz	a0, .Lnoise_BB80_8
	lbu	t4, 92(s7)
	lbu	a1, 93(s7)
	lbu	a2, 94(s7)
	lbu	a3, 95(s7)
	lbu	a6, 96(s7)
	lbu	a7, 97(s7)
	lbu	t0, 98(s7)
	lbu	t1, 99(s7)
	lbu	t5, 84(s7)
	lbu	a5, 85(s7)
	lbu	s1, 86(s7)
	lbu	s0, 87(s7)
	lbu	t2, 88(s7)
	lbu	t3, 89(s7)
	lbu	s11, 90(s7)
	lbu	ra, 91(s7)
	slli	a1, a1, 8
	slli	a2, a2, 16
	slli	a3, a3, 24
	or	t4, a1, t4
	or	t6, a3, a2
	lbu	a1, 76(s7)
	lbu	a2, 77(s7)
	lbu	a3, 78(s7)
	lbu	a0, 79(s7)
	slli	a7, a7, 8
	slli	t0, t0, 16
	slli	t1, t1, 24
	slli	a4, a5, 8
	slli	s1, s1, 16
	slli	a5, s0, 24
	or	a6, a7, a6
	or	t0, t1, t0
	or	a7, a4, t5
	or	t1, a5, s1
	lbu	a4, 80(s7)
	lbu	s1, 81(s7)
	lbu	s0, 82(s7)
	lbu	a5, 83(s7)
	slli	t3, t3, 8
	slli	s11, s11, 16
	slli	ra, ra, 24
	slli	a2, a2, 8
	slli	a3, a3, 16
	slli	a0, a0, 24
	or	t2, t3, t2
	or	t3, ra, s11
	or	t5, a2, a1
	or	s11, a0, a3
	lbu	a2, 68(s7)
	lbu	a3, 69(s7)
	lbu	a1, 70(s7)
	lbu	a0, 71(s7)
	slli	s1, s1, 8
	slli	s0, s0, 16
	slli	a5, a5, 24
	slli	a3, a3, 8
	slli	a1, a1, 16
	slli	a0, a0, 24
	or	ra, s1, a4
	or	a5, a5, s0
	or	a2, a2, a3
	or	a0, a0, a1
	lbu	a1, 73(s7)
	lbu	a3, 72(s7)
	lbu	s0, 74(s7)
	lbu	s1, 75(s7)
	slli	a1, a1, 8
	or	a1, a1, a3
	slli	s0, s0, 16
	slli	s1, s1, 24
	or	s0, s0, s1
	or	t4, t6, t4
	or	s1, t0, a6
	or	a4, t1, a7
	or	a3, t3, t2
	or	a6, s11, t5
	or	a5, a5, ra
	or	a0, a0, a2
	or	a1, a1, s0
	slli	s1, s1, 32
	or	a2, s1, t4
	slli	a3, a3, 32
	or	a3, a3, a4
	slli	a5, a5, 32
	or	a4, a5, a6
	slli	a1, a1, 32
	or	a0, a0, a1
	sd	a0, 1448(sp)
	sd	a4, 1456(sp)
	sd	a3, 1464(sp)
	sd	a2, 1472(sp)
	li	a0, 1
.Lnoise_BB80_8:
	sd	a0, 96(sp)
	ld	a0, 1448(sp)
	ld	a1, 1456(sp)
	ld	a2, 1464(sp)
	ld	a3, 1472(sp)
	sd	a0, 584(sp)
	sd	a1, 592(sp)
	sd	a2, 600(sp)
	sd	a3, 608(sp)
	lbu	a0, 100(s7)
	sd	zero, 1448(sp)
	sd	zero, 1456(sp)
	sd	zero, 1464(sp)
	sd	zero, 1472(sp)
	sd	a0, 72(sp)
	beqz	a0, .Lnoise_BB80_10
	lbu	t4, 125(s7)
	lbu	a1, 126(s7)
	lbu	a2, 127(s7)
	lbu	a3, 128(s7)
	lbu	a6, 129(s7)
	lbu	a7, 130(s7)
	lbu	t0, 131(s7)
	lbu	t1, 132(s7)
	lbu	t5, 117(s7)
	lbu	a5, 118(s7)
	lbu	s1, 119(s7)
	lbu	s0, 120(s7)
	lbu	t2, 121(s7)
	lbu	t3, 122(s7)
	lbu	s11, 123(s7)
	lbu	ra, 124(s7)
	slli	a1, a1, 8
	slli	a2, a2, 16
	slli	a3, a3, 24
	or	t4, a1, t4
	or	t6, a3, a2
	lbu	a1, 109(s7)
	lbu	a2, 110(s7)
	lbu	a3, 111(s7)
	lbu	a0, 112(s7)
	slli	a7, a7, 8
	slli	t0, t0, 16
	slli	t1, t1, 24
	slli	a4, a5, 8
	slli	s1, s1, 16
	slli	a5, s0, 24
	or	a6, a7, a6
	or	t0, t1, t0
	or	a7, a4, t5
	or	t1, a5, s1
	lbu	a4, 113(s7)
	lbu	s1, 114(s7)
	lbu	s0, 115(s7)
	lbu	a5, 116(s7)
	slli	t3, t3, 8
	slli	s11, s11, 16
	slli	ra, ra, 24
	slli	a2, a2, 8
	slli	a3, a3, 16
	slli	a0, a0, 24
	or	t2, t3, t2
	or	t3, ra, s11
	or	t5, a2, a1
	or	s11, a0, a3
	lbu	a2, 101(s7)
	lbu	a3, 102(s7)
	lbu	a1, 103(s7)
	lbu	a0, 104(s7)
	slli	s1, s1, 8
	slli	s0, s0, 16
	slli	a5, a5, 24
	slli	a3, a3, 8
	slli	a1, a1, 16
	slli	a0, a0, 24
	or	ra, s1, a4
	or	a5, a5, s0
	or	a2, a2, a3
	or	a0, a0, a1
	lbu	a1, 106(s7)
	lbu	a3, 105(s7)
	lbu	s0, 107(s7)
	lbu	s1, 108(s7)
	slli	a1, a1, 8
	or	a1, a1, a3
	slli	s0, s0, 16
	slli	s1, s1, 24
	or	s0, s0, s1
	or	t4, t6, t4
	or	s1, t0, a6
	or	a4, t1, a7
	or	a3, t3, t2
	or	a6, s11, t5
	or	a5, a5, ra
	or	a0, a0, a2
	or	a1, a1, s0
	slli	s1, s1, 32
	or	a2, s1, t4
	slli	a3, a3, 32
	or	a3, a3, a4
	slli	a5, a5, 32
	or	a4, a5, a6
	slli	a1, a1, 32
	or	a0, a0, a1
	sd	a0, 1448(sp)
	sd	a4, 1456(sp)
	sd	a3, 1464(sp)
	sd	a2, 1472(sp)
	li	a0, 1
	sd	a0, 64(sp)
	j	.Lnoise_BB80_11
.Lnoise_BB80_10:
	sd	zero, 64(sp)
.Lnoise_BB80_11:
	seqz	s11, s9
	ld	a0, 1448(sp)
	ld	a1, 1456(sp)
	ld	a2, 1464(sp)
	ld	a3, 1472(sp)
	sd	a0, 552(sp)
	sd	a1, 560(sp)
	sd	a2, 568(sp)
	sd	a3, 576(sp)
	lbu	s1, 0(s7)
	sd	zero, 920(sp)
	sd	zero, 928(sp)
	sd	zero, 936(sp)
	sd	zero, 944(sp)
	sd	zero, 888(sp)
	sd	zero, 896(sp)
	sd	zero, 904(sp)
	sd	zero, 912(sp)
	sd	zero, 824(sp)
	sd	zero, 832(sp)
	sd	zero, 840(sp)
	sd	zero, 848(sp)
	sd	zero, 856(sp)
	sd	zero, 864(sp)
	sd	zero, 872(sp)
	sd	zero, 880(sp)
	sd	zero, 784(sp)
	sd	zero, 792(sp)
	sd	zero, 800(sp)
	sd	zero, 808(sp)
	sw	zero, 816(sp)
	sh	zero, 820(sp)
	sb	zero, 822(sp)
	addi	a0, sp, 952
	li	a2, 272
	addi	a1, sp, 280
	call	memcpy
	ld	t3, 1216(sp)
	addi	t2, sp, 1024
	beqz	t3, .Lnoise_BB80_45
	mv	s2, s1
	li	t6, 0
	addi	t5, sp, 1008
	addi	a7, sp, 992
	addi	t1, sp, 1016
	addi	a6, sp, 1000
	mv	a2, t3
	mv	s1, t2
	j	.Lnoise_BB80_14
.Lnoise_BB80_13:
	addi	s1, s1, 24
	addi	a2, a2, -1
	add	t6, t6, a1
	beqz	a2, .Lnoise_BB80_19
.Lnoise_BB80_14:
	li	a1, 0
	ld	a0, 16(s1)
	mv	a3, s1
.Lnoise_BB80_15:
	mv	a4, a3
.Lnoise_BB80_16:
	beqz	a0, .Lnoise_BB80_13
	lbu	a5, 0(a4)
	addi	a3, a4, 1
	li	s0, 6
	addi	a0, a0, -1
	mv	a4, a3
	bne	a5, s0, .Lnoise_BB80_16
	addi	a1, a1, 1
	j	.Lnoise_BB80_15
.Lnoise_BB80_19:
	li	ra, 0
	ld	t4, 1000(sp)
	ld	t0, 1016(sp)
	mv	a4, t3
	mv	a5, t2
	j	.Lnoise_BB80_21
.Lnoise_BB80_20:
	addi	a5, a5, 24
	addi	a4, a4, -1
	add	ra, ra, a3
	beqz	a4, .Lnoise_BB80_26
.Lnoise_BB80_21:
	li	a3, 0
	ld	a0, 16(a5)
	mv	a2, a5
.Lnoise_BB80_22:
	mv	a1, a2
.Lnoise_BB80_23:
	beqz	a0, .Lnoise_BB80_20
	lbu	s0, 0(a1)
	addi	a2, a1, 1
	li	s1, 6
	addi	a0, a0, -1
	mv	a1, a2
	bne	s0, s1, .Lnoise_BB80_23
	addi	a3, a3, 1
	j	.Lnoise_BB80_22
.Lnoise_BB80_26:
	bltu	s10, t6, .Lnoise_BB80_28
	mv	t6, s10
.Lnoise_BB80_28:
	mv	a4, a7
	mv	s1, s2
	bnez	s2, .Lnoise_BB80_30
	mv	a4, t5
	mv	t4, t0
.Lnoise_BB80_30:
	mv	s10, t6
	slli	s11, s11, 12
	bnez	s1, .Lnoise_BB80_32
.Lnoise_BB80_31:
	mv	t5, a7
	mv	t1, a6
.Lnoise_BB80_32:
	add	s9, s9, s11
	ld	s0, 0(t1)
	addi	t6, s7, 1
	addi	s2, s7, 34
	sd	s1, 56(sp)
	snez	a6, s1
	addi	s11, s7, 134
	mv	a1, t5
	mv	a0, s0
.Lnoise_BB80_33:
	beqz	a0, .Lnoise_BB80_35
	lbu	a2, 0(a1)
	addi	a1, a1, 1
	addi	a0, a0, -1
	bnez	a2, .Lnoise_BB80_33
	j	.Lnoise_BB80_42
.Lnoise_BB80_35:
	beqz	t3, .Lnoise_BB80_43
	li	a3, 0
	mv	a0, t3
	mv	a1, t2
	j	.Lnoise_BB80_38
.Lnoise_BB80_37:
	addi	a1, a1, 24
	addi	a0, a0, -1
	xori	a3, a3, 1
	beqz	a0, .Lnoise_BB80_43
.Lnoise_BB80_38:
	zext.b	a2, a3
	bne	a2, a6, .Lnoise_BB80_37
	ld	a2, 16(a1)
	mv	a5, a1
.Lnoise_BB80_40:
	beqz	a2, .Lnoise_BB80_37
	lbu	s1, 0(a5)
	addi	a5, a5, 1
	addi	a2, a2, -1
	bnez	s1, .Lnoise_BB80_40
.Lnoise_BB80_42:
	lbu	a0, 0(t6)
	beqz	a0, .Lnoise_BB80_74
.Lnoise_BB80_43:
	beqz	s0, .Lnoise_BB80_48
	lbu	a0, 0(t5)
	addi	t5, t5, 1
	li	a1, 1
	addi	s0, s0, -1
	bne	a0, a1, .Lnoise_BB80_43
	j	.Lnoise_BB80_55
.Lnoise_BB80_45:
	addi	t5, sp, 1008
	addi	a7, sp, 992
	addi	a6, sp, 1000
	addi	t1, sp, 1016
	mv	a4, a7
	mv	a0, a6
	bnez	s1, .Lnoise_BB80_47
	mv	a4, t5
	mv	a0, t1
.Lnoise_BB80_47:
	ld	t4, 0(a0)
	li	ra, 0
	slli	s11, s11, 12
	beqz	s1, .Lnoise_BB80_31
	j	.Lnoise_BB80_32
.Lnoise_BB80_48:
	beqz	t3, .Lnoise_BB80_56
	li	a3, 0
	j	.Lnoise_BB80_51
.Lnoise_BB80_50:
	addi	t2, t2, 24
	addi	t3, t3, -1
	xori	a3, a3, 1
	beqz	t3, .Lnoise_BB80_56
.Lnoise_BB80_51:
	zext.b	a0, a3
	bne	a0, a6, .Lnoise_BB80_50
	ld	a0, 16(t2)
	mv	a1, t2
.Lnoise_BB80_53:
	beqz	a0, .Lnoise_BB80_50
	lbu	a2, 0(a1)
	addi	a1, a1, 1
	li	a5, 1
	addi	a0, a0, -1
	bne	a2, a5, .Lnoise_BB80_53
.Lnoise_BB80_55:
	lbu	a0, 0(s2)
	beqz	a0, .Lnoise_BB80_75
.Lnoise_BB80_56:
	mv	a1, a4
	mv	a0, t4
	ld	a5, 80(sp)
.Lnoise_BB80_57:
	beqz	a0, .Lnoise_BB80_60
	lbu	a2, 0(a1)
	addi	a1, a1, 1
	addi	a0, a0, -1
	bnez	a2, .Lnoise_BB80_57
	beqz	a5, .Lnoise_BB80_77
.Lnoise_BB80_60:
	mv	a1, a4
	mv	a0, t4
.Lnoise_BB80_61:
	beqz	a0, .Lnoise_BB80_64
	lbu	a2, 0(a1)
	addi	a1, a1, 1
	li	a3, 1
	addi	a0, a0, -1
	bne	a2, a3, .Lnoise_BB80_61
	ld	a0, 72(sp)
	beqz	a0, .Lnoise_BB80_77
.Lnoise_BB80_64:
	beqz	a5, .Lnoise_BB80_68
	mv	a1, a4
	mv	a0, t4
.Lnoise_BB80_66:
	beqz	a0, .Lnoise_BB80_76
	lbu	a2, 0(a1)
	addi	a1, a1, 1
	addi	a0, a0, -1
	bnez	a2, .Lnoise_BB80_66
.Lnoise_BB80_68:
	ld	a0, 72(sp)
	beqz	a0, .Lnoise_BB80_71
.Lnoise_BB80_69:
	beqz	t4, .Lnoise_BB80_76
	lbu	a0, 0(a4)
	addi	a4, a4, 1
	li	a1, 1
	addi	t4, t4, -1
	bne	a0, a1, .Lnoise_BB80_69
.Lnoise_BB80_71:
	bne	s10, ra, .Lnoise_BB80_82
	sd	s9, 72(sp)
	sd	zero, 1328(sp)
	sd	zero, 1336(sp)
	sd	zero, 1344(sp)
	sd	zero, 1352(sp)
	sd	zero, 1360(sp)
	sd	zero, 1368(sp)
	sd	zero, 1376(sp)
	sd	zero, 1264(sp)
	sd	zero, 1272(sp)
	sd	zero, 1280(sp)
	sd	zero, 1288(sp)
	sd	zero, 1296(sp)
	sd	zero, 1304(sp)
	sd	zero, 1312(sp)
	sd	zero, 1320(sp)
	sd	zero, 1224(sp)
	sd	zero, 1232(sp)
	sd	zero, 1240(sp)
	sd	zero, 1248(sp)
	sw	zero, 1256(sp)
	sh	zero, 1260(sp)
	sb	zero, 1262(sp)
	addi	a0, sp, 1448
	li	a2, 272
	addi	a1, sp, 280
	call	memcpy
	ld	a0, 584(sp)
	ld	a1, 592(sp)
	ld	a2, 600(sp)
	ld	a3, 608(sp)
	ld	a4, 552(sp)
	ld	a5, 560(sp)
	ld	s1, 568(sp)
	ld	s0, 576(sp)
	sd	a0, 1416(sp)
	sd	a1, 1424(sp)
	sd	a2, 1432(sp)
	sd	a3, 1440(sp)
	ld	s9, 1712(sp)
	sd	a4, 1384(sp)
	sd	a5, 1392(sp)
	sd	s1, 1400(sp)
	sd	s0, 1408(sp)
	addi	s0, sp, 1520
	beqz	s9, .Lnoise_BB80_107
	li	a0, 0
	mv	a1, s0
	addi	s1, s7, 1
	j	.Lnoise_BB80_79
.Lnoise_BB80_74:
	li	a0, 4
	j	.Lnoise_BB80_83
.Lnoise_BB80_75:
	li	a0, 5
	j	.Lnoise_BB80_83
.Lnoise_BB80_76:
	li	a0, 7
	j	.Lnoise_BB80_83
.Lnoise_BB80_77:
	li	a0, 6
	j	.Lnoise_BB80_83
.Lnoise_BB80_78:
	addi	a0, a0, 1
	addi	a1, a1, 24
	bne	a0, s9, .Lnoise_BB80_79
	j	.Lnoise_BB80_144
.Lnoise_BB80_79:
	slli	a2, a0, 3
	slli	a3, a0, 4
	add	a2, a2, a3
	add	a2, a2, s0
	ld	a2, 16(a2)
	mv	a3, a1
	beqz	a2, .Lnoise_BB80_78
.Lnoise_BB80_80:
	lbu	a4, 0(a3)
	li	a5, 6
	beq	a4, a5, .Lnoise_BB80_103
	addi	a2, a2, -1
	addi	a3, a3, 1
	bnez	a2, .Lnoise_BB80_80
	j	.Lnoise_BB80_78
.Lnoise_BB80_82:
	li	a0, 8
.Lnoise_BB80_83:
	li	s2, 0
	li	a6, 0
	li	t1, 0
	li	t2, 0
	li	s9, 0
	sd	zero, 752(sp)
	sd	zero, 760(sp)
	sd	zero, 768(sp)
	sd	zero, 776(sp)
	sd	zero, 720(sp)
	sd	zero, 728(sp)
	sd	zero, 736(sp)
	sd	zero, 744(sp)
	sd	zero, 656(sp)
	sd	zero, 664(sp)
	sd	zero, 672(sp)
	sd	zero, 680(sp)
	sd	zero, 688(sp)
	sd	zero, 696(sp)
	sd	zero, 704(sp)
	sd	zero, 712(sp)
	sw	zero, 648(sp)
	sh	zero, 652(sp)
	sb	zero, 654(sp)
	sd	zero, 616(sp)
	sd	zero, 624(sp)
	sd	zero, 632(sp)
	sd	zero, 640(sp)
.Lnoise_BB80_84:
	ld	a2, 752(sp)
	ld	a3, 760(sp)
	ld	a4, 768(sp)
	ld	a5, 776(sp)
	ld	a7, 720(sp)
	ld	s0, 728(sp)
	ld	a1, 736(sp)
	ld	s1, 744(sp)
	sd	a2, 240(sp)
	sd	a3, 248(sp)
	sd	a4, 256(sp)
	sd	a5, 264(sp)
	ld	t0, 688(sp)
	ld	a3, 696(sp)
	ld	a4, 704(sp)
	ld	a5, 712(sp)
	sd	a7, 208(sp)
	sd	s0, 216(sp)
	sd	a1, 224(sp)
	sd	s1, 232(sp)
	ld	a1, 656(sp)
	ld	s1, 664(sp)
	ld	s0, 672(sp)
	ld	a2, 680(sp)
	sd	t0, 176(sp)
	sd	a3, 184(sp)
	sd	a4, 192(sp)
	sd	a5, 200(sp)
	ld	a7, 616(sp)
	ld	a4, 624(sp)
	ld	a5, 632(sp)
	ld	a3, 640(sp)
	sd	a1, 144(sp)
	sd	s1, 152(sp)
	sd	s0, 160(sp)
	sd	a2, 168(sp)
	lw	a1, 648(sp)
	lh	a2, 652(sp)
	lbu	s1, 654(sp)
	sd	a7, 104(sp)
	sd	a4, 112(sp)
	sd	a5, 120(sp)
	sd	a3, 128(sp)
	sw	a1, 136(sp)
	sh	a2, 140(sp)
	sb	s1, 142(sp)
	beqz	a6, .Lnoise_BB80_102
	sd	s2, 72(sp)
	sd	s9, 80(sp)
	mv	s9, t6
	mv	s2, t2
	sd	t1, 96(sp)
	lbu	s0, 133(s7)
	lui	a0, 321264
	addi	a0, a0, 257
	ld	a1, 88(sp)
	sw	a0, 0(a1)
	addi	a0, a1, 558
	slli	s10, s0, 5
	sub	a1, a0, s10
	addi	s1, a1, 288
	sub	s8, s1, s11
	li	a2, 288
	li	a1, 0
	call	memset
	bgeu	s8, s10, .Lnoise_BB80_90
.Lnoise_BB80_86:
	li	a2, 32
	mv	a0, s1
	mv	a1, s11
	call	memmove
	addi	s0, s0, -1
	addi	s11, s11, 32
	addi	s1, s1, 32
	bnez	s0, .Lnoise_BB80_86
	ld	s0, 88(sp)
	addi	a0, s0, 4
	sub	a1, a0, s4
	bgeu	a1, s3, .Lnoise_BB80_91
.Lnoise_BB80_88:
	add	s6, s6, s3
	add	s5, s5, s6
.Lnoise_BB80_89:
	lbu	a2, 0(s4)
	addi	s4, s4, 1
	sb	a2, 0(a0)
	addi	a0, a0, 1
	bne	s4, s5, .Lnoise_BB80_89
	j	.Lnoise_BB80_92
.Lnoise_BB80_90:
	mv	a0, s1
	mv	a1, s11
	mv	a2, s10
	call	memmove
	ld	s0, 88(sp)
	addi	a0, s0, 4
	sub	a1, a0, s4
	bltu	a1, s3, .Lnoise_BB80_88
.Lnoise_BB80_91:
	mv	a1, s4
	mv	a2, s3
	call	memmove
.Lnoise_BB80_92:
	sh	s3, 420(s0)
	lbu	a0, 0(s7)
	sb	a0, 422(s0)
	addi	a0, s0, 425
	li	a2, 33
	mv	a1, s9
	call	memmove
	addi	a0, s0, 458
	li	a2, 33
	addi	a1, s7, 34
	call	memmove
	addi	a0, s0, 846
	li	a2, 521
	li	a1, 0
	call	memset
	ld	s9, 96(sp)
	beqz	s9, .Lnoise_BB80_94
	ld	a0, 240(sp)
	ld	a1, 248(sp)
	ld	a2, 256(sp)
	ld	a3, 264(sp)
	sd	a0, 952(sp)
	sd	a1, 960(sp)
	sd	a2, 968(sp)
	sd	a3, 976(sp)
	j	.Lnoise_BB80_95
.Lnoise_BB80_94:
	sd	zero, 952(sp)
	sd	zero, 960(sp)
	sd	zero, 968(sp)
	sd	zero, 976(sp)
.Lnoise_BB80_95:
	lbu	s4, 133(s7)
	addi	s3, sp, 176
	sb	s9, 491(s0)
	addi	a0, s0, 492
	addi	a1, sp, 952
	li	a2, 32
	call	memcpy
	beqz	s2, .Lnoise_BB80_97
	ld	a0, 208(sp)
	ld	a1, 216(sp)
	ld	a2, 224(sp)
	ld	a3, 232(sp)
	sd	a0, 1448(sp)
	sd	a1, 1456(sp)
	sd	a2, 1464(sp)
	sd	a3, 1472(sp)
	j	.Lnoise_BB80_98
.Lnoise_BB80_97:
	sd	zero, 1448(sp)
	sd	zero, 1456(sp)
	sd	zero, 1464(sp)
	sd	zero, 1472(sp)
.Lnoise_BB80_98:
	ld	s5, 80(sp)
	sb	s2, 524(s0)
	ld	a0, 1448(sp)
	ld	a1, 1456(sp)
	ld	a2, 1464(sp)
	ld	a3, 1472(sp)
	sd	a0, 952(sp)
	sd	a1, 960(sp)
	sd	a2, 968(sp)
	sd	a3, 976(sp)
	addi	a0, s0, 525
	addi	a1, sp, 952
	li	a2, 32
	call	memcpy
	sb	s4, 557(s0)
	sb	zero, 423(s0)
	sb	zero, 424(s0)
	addi	a0, s0, 1367
	addi	a1, sp, 144
	li	a2, 32
	call	memcpy
	addi	a0, s0, 1399
	li	a2, 32
	mv	a1, s3
	call	memcpy
	li	a0, 1
	bne	s5, a0, .Lnoise_BB80_100
	ld	a0, 104(sp)
	ld	a1, 112(sp)
	ld	a2, 120(sp)
	ld	a3, 128(sp)
	sd	a0, 1448(sp)
	sd	a1, 1456(sp)
	sd	a2, 1464(sp)
	sd	a3, 1472(sp)
	j	.Lnoise_BB80_101
.Lnoise_BB80_100:
	sd	zero, 1448(sp)
	sd	zero, 1456(sp)
	sd	zero, 1464(sp)
	sd	zero, 1472(sp)
.Lnoise_BB80_101:
	ld	s1, 72(sp)
	sb	s5, 1431(s0)
	ld	a0, 1448(sp)
	ld	a1, 1456(sp)
	ld	a2, 1464(sp)
	ld	a3, 1472(sp)
	sd	a0, 952(sp)
	sd	a1, 960(sp)
	sd	a2, 968(sp)
	sd	a3, 976(sp)
	addi	a0, s0, 1432
	addi	a1, sp, 952
	li	a2, 32
	call	memcpy
	li	a0, 0
	sd	s1, 1464(s0)
.Lnoise_BB80_102:
	addi	sp, sp, 1216
	.cfi_def_cfa_offset 2032
	ld	ra, 2024(sp)
	ld	s0, 2016(sp)
	ld	s1, 2008(sp)
	ld	s2, 2000(sp)
	ld	s3, 1992(sp)
	ld	s4, 1984(sp)
	ld	s5, 1976(sp)
	ld	s6, 1968(sp)
	ld	s7, 1960(sp)
	ld	s8, 1952(sp)
	ld	s9, 1944(sp)
	ld	s10, 1936(sp)
	ld	s11, 1928(sp)
	.cfi_restore ra
	.cfi_restore s0
	.cfi_restore s1
	.cfi_restore s2
	.cfi_restore s3
	.cfi_restore s4
	.cfi_restore s5
	.cfi_restore s6
	.cfi_restore s7
	.cfi_restore s8
	.cfi_restore s9
	.cfi_restore s10
	.cfi_restore s11
	addi	sp, sp, 2032
	.cfi_def_cfa_offset 0
	ret
.Lnoise_BB80_103:
	.cfi_restore_state
	li	a0, 1
	sd	a0, 48(sp)
	lbu	a0, 0(s1)
	sd	zero, 1720(sp)
	sd	zero, 1728(sp)
	sd	zero, 1736(sp)
	sd	zero, 1744(sp)
	beqz	a0, .Lnoise_BB80_105
.Lnoise_BB80_104:
	lbu	t4, 26(s7)
	lbu	a1, 27(s7)
	lbu	a2, 28(s7)
	lbu	a3, 29(s7)
	lbu	a6, 30(s7)
	lbu	a7, 31(s7)
	lbu	t0, 32(s7)
	lbu	t1, 33(s7)
	lbu	t5, 18(s7)
	lbu	a5, 19(s7)
	lbu	s1, 20(s7)
	lbu	s0, 21(s7)
	lbu	t2, 22(s7)
	lbu	t3, 23(s7)
	lbu	s10, 24(s7)
	lbu	ra, 25(s7)
	slli	a1, a1, 8
	slli	a2, a2, 16
	slli	a3, a3, 24
	or	t4, a1, t4
	or	t6, a3, a2
	lbu	a1, 10(s7)
	lbu	a2, 11(s7)
	lbu	a3, 12(s7)
	lbu	a0, 13(s7)
	slli	a7, a7, 8
	slli	t0, t0, 16
	slli	t1, t1, 24
	slli	a4, a5, 8
	slli	s1, s1, 16
	slli	a5, s0, 24
	or	a6, a7, a6
	or	t0, t1, t0
	or	a7, a4, t5
	or	t1, a5, s1
	lbu	a4, 14(s7)
	lbu	s1, 15(s7)
	lbu	s0, 16(s7)
	lbu	a5, 17(s7)
	slli	t3, t3, 8
	slli	s10, s10, 16
	slli	ra, ra, 24
	slli	a2, a2, 8
	slli	a3, a3, 16
	slli	a0, a0, 24
	or	t2, t3, t2
	or	t3, ra, s10
	or	t5, a2, a1
	or	s10, a0, a3
	lbu	a2, 2(s7)
	lbu	a3, 3(s7)
	lbu	a1, 4(s7)
	lbu	a0, 5(s7)
	slli	s1, s1, 8
	slli	s0, s0, 16
	slli	a5, a5, 24
	slli	a3, a3, 8
	slli	a1, a1, 16
	slli	a0, a0, 24
	or	ra, s1, a4
	or	a5, a5, s0
	or	a2, a2, a3
	or	a0, a0, a1
	lbu	a1, 7(s7)
	lbu	a3, 6(s7)
	lbu	s0, 8(s7)
	lbu	s1, 9(s7)
	slli	a1, a1, 8
	or	a1, a1, a3
	slli	s0, s0, 16
	slli	s1, s1, 24
	or	s0, s0, s1
	or	t4, t6, t4
	or	s1, t0, a6
	or	a4, t1, a7
	or	a3, t3, t2
	or	a6, s10, t5
	or	a5, a5, ra
	or	a0, a0, a2
	or	a1, a1, s0
	slli	s1, s1, 32
	or	a2, s1, t4
	slli	a3, a3, 32
	or	a3, a3, a4
	slli	a5, a5, 32
	or	a4, a5, a6
	slli	a1, a1, 32
	or	a0, a0, a1
	sd	a0, 1720(sp)
	sd	a4, 1728(sp)
	sd	a3, 1736(sp)
	sd	a2, 1744(sp)
	li	a0, 1
.Lnoise_BB80_105:
	sd	a0, 80(sp)
	lbu	a0, 0(s2)
	sd	zero, 1752(sp)
	sd	zero, 1760(sp)
	sd	zero, 1768(sp)
	sd	zero, 1776(sp)
	beqz	a0, .Lnoise_BB80_108
	lbu	t4, 59(s7)
	lbu	a1, 60(s7)
	lbu	a2, 61(s7)
	lbu	a3, 62(s7)
	lbu	a6, 63(s7)
	lbu	a7, 64(s7)
	lbu	t0, 65(s7)
	lbu	t1, 66(s7)
	lbu	t5, 51(s7)
	lbu	a5, 52(s7)
	lbu	s1, 53(s7)
	lbu	s0, 54(s7)
	lbu	t2, 55(s7)
	lbu	t3, 56(s7)
	lbu	s10, 57(s7)
	lbu	ra, 58(s7)
	slli	a1, a1, 8
	slli	a2, a2, 16
	slli	a3, a3, 24
	or	t4, a1, t4
	or	t6, a3, a2
	lbu	a1, 43(s7)
	lbu	a2, 44(s7)
	lbu	a3, 45(s7)
	lbu	a0, 46(s7)
	slli	a7, a7, 8
	slli	t0, t0, 16
	slli	t1, t1, 24
	slli	a4, a5, 8
	slli	s1, s1, 16
	slli	a5, s0, 24
	or	a6, a7, a6
	or	t0, t1, t0
	or	a7, a4, t5
	or	t1, a5, s1
	lbu	a4, 47(s7)
	lbu	s1, 48(s7)
	lbu	s0, 49(s7)
	lbu	a5, 50(s7)
	slli	t3, t3, 8
	slli	s10, s10, 16
	slli	ra, ra, 24
	slli	a2, a2, 8
	slli	a3, a3, 16
	slli	a0, a0, 24
	or	t2, t3, t2
	or	t3, ra, s10
	or	t5, a2, a1
	or	s10, a0, a3
	lbu	a2, 35(s7)
	lbu	a3, 36(s7)
	lbu	a1, 37(s7)
	lbu	a0, 38(s7)
	slli	s1, s1, 8
	slli	s0, s0, 16
	slli	a5, a5, 24
	slli	a3, a3, 8
	slli	a1, a1, 16
	slli	a0, a0, 24
	or	ra, s1, a4
	or	a5, a5, s0
	or	a2, a2, a3
	or	a0, a0, a1
	lbu	a1, 40(s7)
	lbu	a3, 39(s7)
	lbu	s0, 41(s7)
	lbu	s1, 42(s7)
	slli	a1, a1, 8
	or	a1, a1, a3
	slli	s0, s0, 16
	slli	s1, s1, 24
	or	s0, s0, s1
	or	t4, t6, t4
	or	s1, t0, a6
	or	a4, t1, a7
	or	a3, t3, t2
	or	a6, s10, t5
	or	a5, a5, ra
	or	a0, a0, a2
	or	a1, a1, s0
	slli	s1, s1, 32
	or	a2, s1, t4
	slli	a3, a3, 32
	or	a3, a3, a4
	slli	a5, a5, 32
	or	a4, a5, a6
	slli	a1, a1, 32
	or	a0, a0, a1
	sd	a0, 1752(sp)
	sd	a4, 1760(sp)
	sd	a3, 1768(sp)
	sd	a2, 1776(sp)
	li	s10, 1
	j	.Lnoise_BB80_109
.Lnoise_BB80_107:
	sd	zero, 48(sp)
	addi	s1, s7, 1
	lbu	a0, 0(s1)
	sd	zero, 1720(sp)
	sd	zero, 1728(sp)
	sd	zero, 1736(sp)
	sd	zero, 1744(sp)
	bnez	a0, .Lnoise_BB80_104
	j	.Lnoise_BB80_105
.Lnoise_BB80_108:
	li	s10, 0
.Lnoise_BB80_109:
	addi	s2, sp, 2047
	addi	s2, s2, 81
	ld	s0, 56(sp)
	addi	a0, sp, 2047
	addi	a0, a0, 193
	li	a2, 264
	li	a1, 0
	call	memset
	addi	a0, sp, 2047
	addi	a0, a0, 81
	li	a2, 112
	li	a1, 0
	call	memset
	addi	a0, sp, 1864
	li	a2, 264
	li	a1, 0
	call	memset
	sd	zero, 1824(sp)
	sd	zero, 1832(sp)
	sd	zero, 1840(sp)
	sd	zero, 1848(sp)
	sd	zero, 1856(sp)
	sd	zero, 1784(sp)
	sd	zero, 1792(sp)
	sd	zero, 1800(sp)
	sd	zero, 1808(sp)
	sd	zero, 1816(sp)
	beqz	s9, .Lnoise_BB80_116
	li	a0, 0
	addi	s1, sp, 1520
	mv	a1, s1
	j	.Lnoise_BB80_112
.Lnoise_BB80_111:
	addi	a0, a0, 1
	addi	a1, a1, 24
	beq	a0, s9, .Lnoise_BB80_116
.Lnoise_BB80_112:
	slli	a2, a0, 3
	slli	a3, a0, 4
	add	a2, a2, a3
	add	a2, a2, s1
	ld	a2, 16(a2)
	mv	a3, a1
	beqz	a2, .Lnoise_BB80_111
.Lnoise_BB80_113:
	lbu	a4, 0(a3)
	li	a5, 6
	beq	a4, a5, .Lnoise_BB80_115
	addi	a2, a2, -1
	addi	a3, a3, 1
	bnez	a2, .Lnoise_BB80_113
	j	.Lnoise_BB80_111
.Lnoise_BB80_115:
	li	a0, 1
	sd	a0, 56(sp)
	j	.Lnoise_BB80_117
.Lnoise_BB80_116:
	sd	zero, 56(sp)
.Lnoise_BB80_117:
	addi	a0, sp, 2047
	addi	a0, a0, 528
	addi	s9, sp, 2047
	addi	s9, s9, 561
	beqz	s0, .Lnoise_BB80_119
	addi	a1, sp, 584
	li	a2, 32
	call	memcpy
	addi	a1, sp, 552
	li	a2, 32
	mv	a0, s9
	call	memcpy
	ld	a0, 1720(sp)
	ld	a1, 1728(sp)
	ld	a2, 1736(sp)
	ld	a3, 1744(sp)
	sd	a0, 544(s2)
	sd	a1, 552(s2)
	sd	a2, 560(s2)
	sd	a3, 568(s2)
	ld	a0, 1752(sp)
	ld	a1, 1760(sp)
	ld	a2, 1768(sp)
	ld	a3, 1776(sp)
	sd	a0, 512(s2)
	sd	a1, 520(s2)
	sd	a2, 528(s2)
	sd	a3, 536(s2)
	ld	a0, 96(sp)
	ld	a1, 64(sp)
	ld	a2, 80(sp)
	j	.Lnoise_BB80_120
.Lnoise_BB80_119:
	addi	a1, sp, 1720
	li	a2, 32
	call	memcpy
	addi	a1, sp, 1752
	li	a2, 32
	mv	a0, s9
	call	memcpy
	ld	a0, 584(sp)
	ld	a1, 592(sp)
	ld	a2, 600(sp)
	ld	a3, 608(sp)
	sd	a0, 544(s2)
	sd	a1, 552(s2)
	sd	a2, 560(s2)
	sd	a3, 568(s2)
	ld	a0, 552(sp)
	ld	a1, 560(sp)
	ld	a2, 568(sp)
	ld	a3, 576(sp)
	sd	a0, 512(s2)
	sd	a1, 520(s2)
	sd	a2, 528(s2)
	sd	a3, 536(s2)
	ld	a0, 80(sp)
	mv	a1, s10
	ld	a2, 96(sp)
	ld	s10, 64(sp)
.Lnoise_BB80_120:
	sb	a0, 446(s2)
	sb	a1, 479(s2)
	sb	a2, 380(s2)
	addi	a0, sp, 2047
	addi	a0, a0, 462
	addi	a1, sp, 2047
	addi	a1, a1, 625
	li	a2, 32
	call	memcpy
	sb	s10, 413(s2)
	addi	a0, sp, 2047
	addi	a0, a0, 495
	addi	a1, sp, 2047
	addi	a1, a1, 593
	li	a2, 32
	call	memcpy
	ld	s10, 1456(sp)
	ld	a2, 1480(sp)
	ld	a0, 1496(sp)
	sd	a0, 40(sp)
	ld	a0, 1512(sp)
	sd	a0, 80(sp)
	sd	zero, 576(s2)
	sd	zero, 584(s2)
	sd	zero, 592(s2)
	sd	zero, 648(s2)
	sd	zero, 656(s2)
	sd	zero, 664(s2)
	sd	zero, 672(s2)
	sd	zero, 680(s2)
	beqz	a2, .Lnoise_BB80_123
	addi	a0, sp, 1464
	addi	a1, sp, 2047
	addi	a1, a1, 657
	add	a2, a2, a1
	li	a3, 1
.Lnoise_BB80_122:
	lbu	a4, 0(a0)
	addi	a0, a0, 1
	sb	a4, 0(a1)
	sd	a3, 592(s2)
	addi	a1, a1, 1
	addi	a3, a3, 1
	bne	a1, a2, .Lnoise_BB80_122
.Lnoise_BB80_123:
	addi	s9, sp, 2047
	addi	s9, s9, 1000
	addi	a1, sp, 2047
	addi	a1, a1, 657
	li	a2, 24
	mv	a0, s9
	call	memcpy
	addi	s1, sp, 2047
	addi	s1, s1, 664
	li	a2, 24
	mv	a0, s1
	mv	a1, s9
	call	memcpy
	addi	a0, sp, 2047
	addi	a0, a0, 1000
	li	a2, 24
	mv	a1, s1
	call	memcpy
	lbu	t0, 919(s2)
	lbu	a1, 920(s2)
	lbu	a2, 921(s2)
	lbu	a3, 922(s2)
	lbu	a6, 923(s2)
	lbu	a7, 924(s2)
	lbu	t1, 925(s2)
	lbu	t2, 926(s2)
	lbu	a4, 927(s2)
	lbu	a5, 928(s2)
	lbu	a0, 929(s2)
	lbu	s1, 930(s2)
	slli	s0, a1, 8
	slli	a2, a2, 16
	slli	a1, a3, 24
	or	t0, s0, t0
	or	t3, a1, a2
	lbu	a2, 931(s2)
	lbu	s0, 932(s2)
	lbu	a3, 933(s2)
	lbu	a1, 934(s2)
	slli	a7, a7, 8
	slli	t1, t1, 16
	slli	t2, t2, 24
	slli	a5, a5, 8
	slli	a0, a0, 16
	slli	s1, s1, 24
	or	a6, a7, a6
	or	a7, t2, t1
	or	t1, a5, a4
	or	t2, s1, a0
	lbu	a5, 935(s2)
	lbu	s1, 936(s2)
	lbu	a4, 937(s2)
	lbu	a0, 938(s2)
	slli	s0, s0, 8
	slli	a3, a3, 16
	slli	a1, a1, 24
	slli	s1, s1, 8
	slli	a4, a4, 16
	slli	a0, a0, 24
	or	t4, s0, a2
	or	a1, a1, a3
	or	a5, a5, s1
	or	a0, a0, a4
	lbu	a3, 940(s2)
	lbu	a4, 939(s2)
	lbu	s1, 941(s2)
	lbu	s0, 942(s2)
	slli	a3, a3, 8
	or	a3, a3, a4
	slli	s1, s1, 16
	slli	s0, s0, 24
	or	s0, s0, s1
	or	a4, t3, t0
	or	s1, a7, a6
	or	a2, t2, t1
	or	a1, a1, t4
	or	a0, a0, a5
	or	a3, a3, s0
	slli	s1, s1, 32
	or	a4, a4, s1
	slli	a1, a1, 32
	or	a1, a1, a2
	slli	a3, a3, 32
	or	a0, a0, a3
	li	a2, 9
	sd	a4, 576(s2)
	sd	a1, 584(s2)
	sd	a0, 592(s2)
	sd	zero, 912(s2)
	bgeu	s10, a2, .Lnoise_BB80_145
	addi	a0, sp, 2047
	addi	a0, a0, 993
	addi	a1, sp, 1448
	mv	a2, s10
	call	memcpy
	ld	a0, 912(s2)
	ld	a1, 576(s2)
	ld	a2, 584(s2)
	ld	a3, 592(s2)
	sd	a0, 648(s2)
	sd	s10, 656(s2)
	sd	a1, 664(s2)
	sd	a0, 1824(sp)
	sd	s10, 1832(sp)
	sd	a1, 1840(sp)
	sd	a2, 1848(sp)
	sd	a3, 1856(sp)
	sd	a3, 1816(sp)
	sd	a0, 1784(sp)
	sd	s10, 1792(sp)
	sd	a1, 1800(sp)
	sd	a2, 1808(sp)
	addi	s1, sp, 2047
	addi	s1, s1, 735
	li	a2, 250
	mv	a0, s1
	li	a1, 0
	call	memset
	lui	a0, 472727
	lui	a1, 6
	ld	s10, 1792(sp)
	addi	a0, a0, -178
	addi	a1, a1, -155
	li	a2, 249
	sw	a0, 648(s2)
	sh	a1, 652(s2)
	bltu	a2, s10, .Lnoise_BB80_145
	addi	a1, sp, 1784
	mv	a0, s1
	mv	a2, s10
	call	memcpy
	ld	a1, 1816(sp)
	addi	s0, s10, 6
	beqz	a1, .Lnoise_BB80_139
	li	a0, 246
	bltu	a0, s10, .Lnoise_BB80_145
	addi	a0, sp, 2047
	addi	a0, a0, 729
.Lnoise_pcrel_hi59:
	auipc	a2, %pcrel_hi(.Lnoise_static.51)
	add	s0, s0, a0
	addi	a0, a2, %pcrel_lo(.Lnoise_pcrel_hi59)
	sub	a2, s0, a0
	li	a3, 3
	bgeu	a2, a3, .Lnoise_BB80_129
	li	a2, 112
	li	a3, 115
	li	a4, 107
	sb	a2, 0(s0)
	sb	a3, 1(s0)
	sb	a4, 2(s0)
	j	.Lnoise_BB80_130
.Lnoise_BB80_129:
	li	a2, 107
	li	a3, 115
	li	a4, 112
	sb	a4, 0(s0)
	sb	a3, 1(s0)
	sb	a2, 2(s0)
.Lnoise_BB80_130:
	lbu	a2, 1800(sp)
	addi	a3, sp, 2047
	addi	a3, a3, 729
	add	a3, a3, s10
	addi	a2, a2, 48
	addi	a1, a1, -1
	sb	a2, 9(a3)
	beqz	a1, .Lnoise_BB80_138
	addi	a2, s10, -242
	addi	a3, sp, 1801
	j	.Lnoise_BB80_134
.Lnoise_BB80_132:
	li	a5, 107
	li	s1, 115
	li	s0, 112
	sb	s0, 0(a4)
	sb	s1, 1(a4)
	sb	a5, 2(a4)
.Lnoise_BB80_133:
	lbu	a4, 0(a3)
	addi	a5, sp, 2047
	addi	a5, a5, 729
	addi	a1, a1, -1
	add	a5, a5, a2
	addi	a2, a2, 5
	addi	a4, a4, 48
	sb	a4, 256(a5)
	addi	a3, a3, 1
	beqz	a1, .Lnoise_BB80_137
.Lnoise_BB80_134:
	addi	a4, sp, 2047
	addi	a4, a4, 729
	li	a5, 43
	add	a4, a4, a2
	li	s1, 3
	sb	a5, 252(a4)
	bltu	a2, s1, .Lnoise_BB80_145
	addi	a4, a4, 253
	sub	a5, a4, a0
	li	s1, 2
	bltu	s1, a5, .Lnoise_BB80_132
	li	a5, 112
	addi	s1, sp, 2047
	addi	s1, s1, 729
	sb	a5, 0(a4)
	li	a4, 115
	li	a5, 107
	add	s1, s1, a2
	sb	a4, 254(s1)
	sb	a5, 255(s1)
	j	.Lnoise_BB80_133
.Lnoise_BB80_137:
	addi	s0, a2, 252
	j	.Lnoise_BB80_139
.Lnoise_BB80_138:
	addi	s0, s10, 10
.Lnoise_BB80_139:
	addi	a0, s0, -232
	li	a1, 23
	bgeu	a1, a0, .Lnoise_BB80_145
	addi	a0, sp, 2047
	addi	a0, a0, 729
	add	a0, a0, s0
.Lnoise_pcrel_hi60:
	auipc	a1, %pcrel_hi(.Lnoise_static.98)
	addi	a1, a1, %pcrel_lo(.Lnoise_pcrel_hi60)
	li	a2, 24
	call	memcpy
	addi	s0, s0, 24
	sd	s0, 904(s2)
	addi	a0, sp, 1864
	addi	a1, sp, 2047
	addi	a1, a1, 729
	li	a2, 264
	call	memcpy
	addi	a0, sp, 2047
	addi	a0, a0, 193
	addi	a1, sp, 1864
	li	a2, 264
	call	memcpy
	ld	s10, 368(s2)
	li	a0, 33
	bltu	s10, a0, .Lnoise_BB80_142
	addi	a0, sp, 2047
	addi	a0, a0, 1025
	li	a2, 72
	li	a1, 0
	call	memset
.Lnoise_pcrel_hi61:
	auipc	a0, %pcrel_hi(.Lnoise_CPI80_0)
.Lnoise_pcrel_hi62:
	auipc	a1, %pcrel_hi(.Lnoise_CPI80_1)
.Lnoise_pcrel_hi63:
	auipc	a2, %pcrel_hi(.Lnoise_CPI80_2)
.Lnoise_pcrel_hi64:
	auipc	a3, %pcrel_hi(.Lnoise_CPI80_3)
	ld	a0, %pcrel_lo(.Lnoise_pcrel_hi61)(a0)
	ld	a1, %pcrel_lo(.Lnoise_pcrel_hi62)(a1)
	ld	a2, %pcrel_lo(.Lnoise_pcrel_hi63)(a2)
	ld	a3, %pcrel_lo(.Lnoise_pcrel_hi64)(a3)
	sd	a0, 912(s2)
	sd	a1, 920(s2)
	sd	a2, 928(s2)
	sd	a3, 936(s2)
	addi	a0, sp, 2047
	addi	a0, a0, 993
	addi	a1, sp, 2047
	addi	a1, a1, 193
	mv	a2, s10
	call	noise_sha2_block256_Core256_update
	addi	a0, sp, 2047
	addi	a0, a0, 729
	addi	a1, sp, 2047
	addi	a1, a1, 993
	li	a2, 104
	call	memcpy
	ld	s0, 744(s2)
	li	a0, 55
	sub	a0, a0, s0
	andi	a2, a0, 63
	addi	a2, a2, 1
.Lnoise_pcrel_hi65:
	auipc	a1, %pcrel_hi(.Lnoise_static.100)
	addi	a1, a1, %pcrel_lo(.Lnoise_pcrel_hi65)
	addi	a0, sp, 2047
	addi	a0, a0, 729
	call	noise_sha2_block256_Core256_update
	slli	a0, s0, 43
	li	a1, 255
	slli	a2, s0, 27
	srli	a3, s0, 21
	lui	a4, 4080
	and	a3, a3, a4
	slli	a4, a1, 48
	and	a0, a0, a4
	slli	a4, a1, 40
	and	a2, a2, a4
	slli	a4, s0, 11
	slli	a1, a1, 32
	and	a1, a1, a4
	slli	a4, s0, 59
	or	a0, a0, a4
	slli	a4, s0, 3
	or	a1, a1, a2
	srli	a2, s0, 5
	srli	a5, s0, 37
	srliw	a2, a2, 24
	slli	a2, a2, 24
	or	a2, a2, a3
	lui	a3, 16
	srli	a4, a4, 56
	addi	s0, a3, -256
	and	a5, a5, s0
	or	a0, a0, a1
	or	a0, a0, a2
	or	a4, a4, a5
	or	a0, a0, a4
	sd	a0, 576(s2)
	addi	a0, sp, 2047
	addi	a0, a0, 729
	addi	a1, sp, 2047
	addi	a1, a1, 657
	li	a2, 8
	call	noise_sha2_block256_Core256_update
	lw	a4, 648(s2)
	lw	a5, 652(s2)
	lw	s1, 656(s2)
	lw	a0, 660(s2)
	lw	a2, 664(s2)
	lw	a3, 668(s2)
	lw	t5, 672(s2)
	lw	t0, 676(s2)
	srli	a6, a4, 8
	srliw	a7, a4, 24
	and	t1, a4, s0
	slli	t3, a4, 24
	srli	t2, a5, 8
	srliw	a4, a5, 24
	and	a1, a5, s0
	sd	a1, 16(sp)
	slli	s10, a5, 24
	srli	a1, s1, 8
	srliw	t6, s1, 24
	and	s9, s1, s0
	slli	t4, s1, 24
	and	a5, a6, s0
	or	a5, a5, a7
	sd	a5, 32(sp)
	srli	ra, a0, 8
	slli	t1, t1, 8
	or	a5, t3, t1
	sd	a5, 24(sp)
	srliw	a6, a0, 24
	and	s1, t2, s0
	or	t1, s1, a4
	and	a7, a0, s0
	slli	a0, a0, 24
	ld	a4, 16(sp)
	slli	a4, a4, 8
	or	t2, s10, a4
	srli	s10, a2, 8
	and	a5, a1, s0
	or	t3, a5, t6
	srliw	a5, a2, 24
	slli	s9, s9, 8
	or	t4, t4, s9
	and	a4, a2, s0
	slli	a2, a2, 24
	and	s1, ra, s0
	or	a6, s1, a6
	srli	s1, a3, 8
	slli	a7, a7, 8
	or	a7, a0, a7
	srliw	a0, a3, 24
	and	a1, s10, s0
	or	t6, a1, a5
	and	a1, a3, s0
	slli	a3, a3, 24
	slli	a4, a4, 8
	or	s9, a2, a4
	srli	a2, t5, 8
	and	s1, s1, s0
	or	s10, s1, a0
	srliw	a0, t5, 24
	slli	a1, a1, 8
	or	a4, a3, a1
	and	a1, t5, s0
	slli	t5, t5, 24
	and	a2, a2, s0
	or	ra, a2, a0
	srli	a0, t0, 8
	slli	a1, a1, 8
	or	t5, t5, a1
	srliw	a1, t0, 24
	and	a0, a0, s0
	or	s1, a0, a1
	and	a0, t0, s0
	slli	t0, t0, 24
	slli	a0, a0, 8
	or	t0, t0, a0
	ld	a0, 32(sp)
	ld	a1, 24(sp)
	or	a0, a0, a1
	or	a5, t2, t1
	or	a1, t4, t3
	or	a2, a7, a6
	or	a3, s9, t6
	or	a4, a4, s10
	or	s0, t5, ra
	or	s1, t0, s1
	j	.Lnoise_BB80_143
.Lnoise_BB80_142:
	sd	zero, 648(s2)
	sd	zero, 656(s2)
	sd	zero, 664(s2)
	sd	zero, 672(s2)
	addi	a0, sp, 2047
	addi	a0, a0, 729
	addi	a1, sp, 2047
	addi	a1, a1, 193
	mv	a2, s10
	call	memcpy
	lw	a0, 648(s2)
	lw	a5, 652(s2)
	lw	a1, 656(s2)
	lw	a2, 660(s2)
	lw	a3, 664(s2)
	lw	a4, 668(s2)
	lw	s0, 672(s2)
	lw	s1, 676(s2)
.Lnoise_BB80_143:
	addi	s9, sp, 1488
	sw	a0, 0(s2)
	sw	a5, 4(s2)
	sw	a1, 8(s2)
	sw	a2, 12(s2)
	sw	a3, 16(s2)
	sw	a4, 20(s2)
	sw	s0, 24(s2)
	sw	s1, 28(s2)
	addi	s10, sp, 2047
	addi	s10, s10, 113
	sw	a0, 32(s2)
	sw	a5, 36(s2)
	sw	a1, 40(s2)
	sw	a2, 44(s2)
	sw	a3, 48(s2)
	sw	a4, 52(s2)
	sw	s0, 56(s2)
	sw	s1, 60(s2)
	sd	zero, 64(s2)
	sd	zero, 72(s2)
	sd	zero, 80(s2)
	sd	zero, 88(s2)
	sd	zero, 96(s2)
	sd	zero, 104(s2)
	addi	a0, sp, 2047
	addi	a0, a0, 729
	mv	a1, s10
	ld	a2, 72(sp)
	mv	a3, s8
	call	noise_noise_state_symmetric_hash_of_both
	addi	a1, sp, 2047
	addi	a1, a1, 729
	li	a2, 32
	mv	a0, s10
	call	memcpy
	addi	a0, sp, 2047
	addi	a0, a0, 81
	addi	a2, sp, 2047
	addi	a2, a2, 527
	ld	s0, 56(sp)
	mv	a1, s0
	mv	a3, s9
	ld	a4, 40(sp)
	call	noise_noise_handshake_setup_mix_premessage
	addi	a0, sp, 2047
	addi	a0, a0, 81
	addi	a2, sp, 2047
	addi	a2, a2, 461
	mv	a1, s0
	addi	a3, sp, 1504
	ld	a4, 80(sp)
	call	noise_noise_handshake_setup_mix_premessage
	ld	t2, 32(s2)
	ld	t1, 40(s2)
	ld	t6, 48(s2)
	ld	s10, 56(s2)
	ld	a3, 0(s2)
	ld	t5, 8(s2)
	ld	a5, 16(s2)
	ld	a4, 24(s2)
	lbu	s8, 100(s2)
	lbu	a0, 101(s2)
	sd	a0, 72(sp)
	lbu	ra, 102(s2)
	lbu	a0, 103(s2)
	sd	a0, 80(sp)
	lbu	a0, 96(s2)
	sd	a0, 56(sp)
	lbu	t0, 97(s2)
	lbu	a0, 98(s2)
	lbu	s0, 99(s2)
	lbu	s9, 64(s2)
	lbu	s1, 65(s2)
	lbu	a1, 66(s2)
	lbu	t3, 67(s2)
	lbu	t4, 68(s2)
	lbu	a2, 69(s2)
	sd	a2, 40(sp)
	lbu	a7, 70(s2)
	lbu	a6, 71(s2)
	sd	t2, 1296(sp)
	sd	t1, 1304(sp)
	sd	t6, 1312(sp)
	sd	s10, 1320(sp)
	lbu	t1, 72(s2)
	lbu	t2, 73(s2)
	lbu	a2, 74(s2)
	lbu	t6, 75(s2)
	sd	a3, 1264(sp)
	sd	t5, 1272(sp)
	sd	a5, 1280(sp)
	sd	a4, 1288(sp)
	lbu	t5, 76(s2)
	lbu	a3, 77(s2)
	sd	a3, 24(sp)
	lbu	a3, 78(s2)
	lbu	a4, 79(s2)
	slli	ra, ra, 8
	slli	a0, a0, 8
	slli	s0, s0, 16
	slli	s8, s8, 24
	slli	a1, a1, 8
	ld	s10, 72(sp)
	or	a5, ra, s10
	sd	a5, 72(sp)
	or	a0, a0, t0
	sd	a0, 32(sp)
	or	ra, s8, s0
	or	s8, a1, s1
	lbu	s0, 80(s2)
	lbu	s1, 81(s2)
	lbu	a1, 82(s2)
	lbu	a0, 83(s2)
	slli	t3, t3, 16
	slli	t0, t4, 24
	slli	a7, a7, 8
	slli	a6, a6, 16
	slli	t1, t1, 24
	slli	a2, a2, 8
	or	t0, t0, t3
	ld	a5, 40(sp)
	or	a7, a7, a5
	or	a6, t1, a6
	or	t1, a2, t2
	lbu	t3, 84(s2)
	lbu	t2, 85(s2)
	lbu	a2, 86(s2)
	lbu	s10, 87(s2)
	slli	t4, t6, 16
	slli	t5, t5, 24
	slli	a3, a3, 8
	slli	a4, a4, 16
	slli	s0, s0, 24
	slli	a1, a1, 8
	or	t4, t5, t4
	ld	a5, 24(sp)
	or	t5, a3, a5
	or	a4, a4, s0
	or	t6, a1, s1
	lbu	s1, 88(s2)
	lbu	s0, 89(s2)
	lbu	a3, 90(s2)
	lbu	a1, 91(s2)
	slli	a0, a0, 16
	slli	t3, t3, 24
	slli	a2, a2, 8
	slli	s10, s10, 16
	slli	s1, s1, 24
	slli	a3, a3, 8
	or	t3, t3, a0
	or	t2, a2, t2
	or	s1, s1, s10
	or	s10, a3, s0
	lbu	s0, 92(s2)
	lbu	a0, 93(s2)
	lbu	a2, 94(s2)
	lbu	a3, 95(s2)
	slli	a1, a1, 16
	slli	s0, s0, 24
	or	a1, a1, s0
	slli	a2, a2, 8
	or	a0, a0, a2
	slli	a3, a3, 16
	ld	a2, 56(sp)
	slli	a2, a2, 24
	or	a2, a2, a3
	ld	a3, 32(sp)
	or	a3, ra, a3
	or	a5, t0, s8
	or	s0, a6, a7
	or	a6, t4, t1
	or	a4, a4, t5
	or	a7, t3, t6
	or	s1, s1, t2
	or	a1, a1, s10
	or	a0, a0, a2
	sw	a3, 1256(sp)
	ld	a2, 72(sp)
	sh	a2, 1260(sp)
	ld	a2, 80(sp)
	sb	a2, 1262(sp)
	slli	s0, s0, 32
	or	a5, a5, s0
	slli	a4, a4, 32
	or	a2, a4, a6
	slli	s1, s1, 32
	or	a4, s1, a7
	ld	s2, 104(s2)
	slli	a0, a0, 32
	or	a0, a0, a1
	addi	a1, s9, -1
	seqz	a3, a1
	sd	a5, 1224(sp)
	sd	a2, 1232(sp)
	sd	a4, 1240(sp)
	sd	a0, 1248(sp)
	addi	a0, sp, 1328
	addi	a1, sp, 1448
	ld	a2, 48(sp)
	li	a4, 0
	call	noise_noise_handshake_layout_lay_next
	ld	a0, 1416(sp)
	ld	a1, 1424(sp)
	ld	a2, 1432(sp)
	ld	a3, 1440(sp)
	ld	a4, 1384(sp)
	ld	a5, 1392(sp)
	ld	s0, 1400(sp)
	ld	s1, 1408(sp)
	ld	t5, 1264(sp)
	ld	t6, 1272(sp)
	ld	s10, 1280(sp)
	ld	ra, 1288(sp)
	ld	a6, 1296(sp)
	ld	a7, 1304(sp)
	ld	t0, 1312(sp)
	ld	t1, 1320(sp)
	sd	a0, 920(sp)
	sd	a1, 928(sp)
	sd	a2, 936(sp)
	sd	a3, 944(sp)
	lw	t3, 1256(sp)
	lh	t4, 1260(sp)
	lbu	t2, 1262(sp)
	sd	a4, 888(sp)
	sd	a5, 896(sp)
	sd	s0, 904(sp)
	sd	s1, 912(sp)
	ld	a4, 1224(sp)
	ld	a3, 1232(sp)
	ld	a2, 1240(sp)
	ld	a1, 1248(sp)
	sd	t5, 824(sp)
	sd	t6, 832(sp)
	sd	s10, 840(sp)
	sd	ra, 848(sp)
	li	a0, 4
	sd	a6, 856(sp)
	sd	a7, 864(sp)
	sd	t0, 872(sp)
	sd	t1, 880(sp)
	sw	t3, 816(sp)
	sh	t4, 820(sp)
	sb	t2, 822(sp)
	sd	a4, 784(sp)
	sd	a3, 792(sp)
	sd	a2, 800(sp)
	sd	a1, 808(sp)
	ld	a1, 920(sp)
	ld	a2, 928(sp)
	ld	a3, 936(sp)
	ld	a4, 944(sp)
	ld	a5, 888(sp)
	ld	s1, 896(sp)
	ld	s0, 904(sp)
	ld	a6, 912(sp)
	sd	a1, 752(sp)
	sd	a2, 760(sp)
	sd	a3, 768(sp)
	sd	a4, 776(sp)
	ld	a7, 856(sp)
	ld	a2, 864(sp)
	ld	a3, 872(sp)
	ld	a4, 880(sp)
	sd	a5, 720(sp)
	sd	s1, 728(sp)
	sd	s0, 736(sp)
	sd	a6, 744(sp)
	ld	a5, 824(sp)
	ld	s1, 832(sp)
	ld	s0, 840(sp)
	ld	a1, 848(sp)
	sd	a7, 688(sp)
	sd	a2, 696(sp)
	sd	a3, 704(sp)
	sd	a4, 712(sp)
	lw	a2, 816(sp)
	lh	a3, 820(sp)
	lbu	a4, 822(sp)
	sd	a5, 656(sp)
	sd	s1, 664(sp)
	sd	s0, 672(sp)
	sd	a1, 680(sp)
	sw	a2, 648(sp)
	sh	a3, 652(sp)
	sb	a4, 654(sp)
	ld	a1, 784(sp)
	ld	a2, 792(sp)
	ld	a3, 800(sp)
	ld	a4, 808(sp)
	sd	a1, 616(sp)
	sd	a2, 624(sp)
	sd	a3, 632(sp)
	sd	a4, 640(sp)
	li	a6, 1
	ld	t1, 96(sp)
	ld	t2, 64(sp)
	addi	t6, s7, 1
	j	.Lnoise_BB80_84
.Lnoise_BB80_144:
	sd	zero, 48(sp)
	lbu	a0, 0(s1)
	sd	zero, 1720(sp)
	sd	zero, 1728(sp)
	sd	zero, 1736(sp)
	sd	zero, 1744(sp)
	bnez	a0, .Lnoise_BB80_104
	j	.Lnoise_BB80_105
.Lnoise_BB80_145:
	unimp
.Lnoise_func_end80:
	.size	noise_start, .Lnoise_func_end80-noise_start
	.cfi_endproc

	.section	.text.noise_stream_is_cut,"ax",@progbits
	.globl	noise_stream_is_cut
	.p2align	1
	.type	noise_stream_is_cut,@function
noise_stream_is_cut:
	.cfi_startproc
	mv	a2, a0
	lw	a3, 0(a0)
	lui	a0, 321265
	addi	a4, a0, -1279
	li	a0, 23
	bne	a3, a4, .Lnoise_BB81_9
	lbu	a4, 4(a2)
	li	a3, 1
	beq	a4, a3, .Lnoise_BB81_4
	li	a3, 2
	bne	a4, a3, .Lnoise_BB81_9
	li	a3, 0
.Lnoise_BB81_4:
	lbu	a4, 56(a2)
	li	a5, 2
	bltu	a5, a4, .Lnoise_BB81_9
	li	a5, 1
	bne	a4, a5, .Lnoise_BB81_8
	ld	a5, 48(a2)
	beqz	a5, .Lnoise_BB81_9
	lbu	a2, 5(a2)
	snez	a2, a2
	and	a2, a2, a3
	bnez	a2, .Lnoise_BB81_9
.Lnoise_BB81_8:
	xori	a0, a4, 1
	or	a0, a0, a1
	seqz	a0, a0
	addi	a0, a0, -1
	andi	a0, a0, 44
.Lnoise_BB81_9:
	ret
.Lnoise_func_end81:
	.size	noise_stream_is_cut, .Lnoise_func_end81-noise_stream_is_cut
	.cfi_endproc

	.section	.text.noise_stream_read,"ax",@progbits
	.globl	noise_stream_read
	.p2align	1
	.type	noise_stream_read,@function
noise_stream_read:
	.cfi_startproc
	addi	sp, sp, -192
	.cfi_def_cfa_offset 192
	sd	ra, 184(sp)
	sd	s0, 176(sp)
	sd	s1, 168(sp)
	sd	s2, 160(sp)
	sd	s3, 152(sp)
	sd	s4, 144(sp)
	sd	s5, 136(sp)
	sd	s6, 128(sp)
	sd	s7, 120(sp)
	sd	s8, 112(sp)
	sd	s9, 104(sp)
	sd	s10, 96(sp)
	.cfi_offset ra, -8
	.cfi_offset s0, -16
	.cfi_offset s1, -24
	.cfi_offset s2, -32
	.cfi_offset s3, -40
	.cfi_offset s4, -48
	.cfi_offset s5, -56
	.cfi_offset s6, -64
	.cfi_offset s7, -72
	.cfi_offset s8, -80
	.cfi_offset s9, -88
	.cfi_offset s10, -96
	.cfi_remember_state
	mv	s0, a0
	lw	a4, 0(a0)
	lui	a0, 321265
	addi	a5, a0, -1279
	li	a0, 23
	bne	a4, a5, .Lnoise_BB82_17
	lbu	a4, 4(s0)
	li	s7, 1
	beq	a4, s7, .Lnoise_BB82_4
	li	a5, 2
	bne	a4, a5, .Lnoise_BB82_17
	li	s7, 0
	li	a4, 1
	lbu	s1, 56(s0)
	li	a5, 2
	bgeu	a5, s1, .Lnoise_BB82_5
	j	.Lnoise_BB82_17
.Lnoise_BB82_4:
	li	a4, 0
	lbu	s1, 56(s0)
	li	a5, 2
	bltu	a5, s1, .Lnoise_BB82_17
.Lnoise_BB82_5:
	lbu	a5, 5(s0)
	ld	a7, 40(s0)
	ld	s10, 48(s0)
	li	a6, 1
	snez	s2, a5
	bne	s1, a6, .Lnoise_BB82_8
	and	a5, s7, s2
	bnez	a5, .Lnoise_BB82_17
	beqz	s10, .Lnoise_BB82_17
.Lnoise_BB82_8:
	mv	s8, a1
	mv	s9, a2
	mv	s5, a3
	mv	s4, s0
	addi	s3, s0, 6
	sb	a4, 8(sp)
	sb	s2, 9(sp)
	sh	zero, 10(sp)
	sh	zero, 12(sp)
	sh	zero, 14(sp)
	sd	a7, 16(sp)
	sb	a6, 24(sp)
	addi	s6, sp, 25
	li	a2, 32
	mv	a0, s6
	mv	a1, s3
	call	memcpy
	sb	zero, 57(sp)
	sb	zero, 58(sp)
	sb	zero, 59(sp)
	sb	zero, 60(sp)
	sb	zero, 61(sp)
	sb	zero, 62(sp)
	sb	zero, 63(sp)
	sd	s10, 64(sp)
	sb	s1, 72(sp)
	sb	zero, 73(sp)
	sb	zero, 74(sp)
	sb	zero, 75(sp)
	sb	zero, 76(sp)
	sb	zero, 77(sp)
	sb	zero, 78(sp)
	sb	zero, 79(sp)
	beqz	s1, .Lnoise_BB82_10
	li	a0, 43
	j	.Lnoise_BB82_17
.Lnoise_BB82_10:
	li	s0, 2
	mv	a0, s5
	bltu	s9, s0, .Lnoise_BB82_12
	seqz	a1, s8
	slli	a1, a1, 12
	add	a4, s8, a1
	lbu	a1, 0(a4)
	lbu	a2, 1(a4)
	slli	a1, a1, 8
	or	a5, a1, a2
	addi	s0, a5, 2
	bgeu	s9, s0, .Lnoise_BB82_13
.Lnoise_BB82_12:
	sub	a1, s0, s9
	sd	a1, 24(a0)
	li	a0, 42
	j	.Lnoise_BB82_17
.Lnoise_BB82_13:
	and	a0, s7, s2
	sd	zero, 80(sp)
	sd	zero, 88(sp)
	beqz	a0, .Lnoise_BB82_18
	li	s2, 3
	mv	s0, s4
.Lnoise_BB82_15:
	lbu	a1, 24(sp)
	li	a0, 1
	bne	a1, a0, .Lnoise_BB82_33
	lbu	a1, 8(sp)
	lbu	a2, 9(sp)
	ld	s1, 16(sp)
	ld	s4, 64(sp)
	li	a3, 78
	li	a4, 111
	li	a5, 11
	sb	a0, 0(s0)
	sb	a5, 1(s0)
	sb	a4, 2(s0)
	sb	a3, 3(s0)
	andi	a2, a2, 1
	snez	a0, a1
	addi	a0, a0, 1
	sb	a0, 4(s0)
	sb	a2, 5(s0)
	li	a2, 32
	mv	a0, s3
	mv	a1, s6
	call	memcpy
	srli	a6, s1, 56
	srli	a7, s1, 48
	srli	t2, s1, 40
	srli	a3, s1, 32
	srli	a4, s1, 24
	srli	a5, s1, 16
	srli	t3, s1, 8
	srli	t0, s4, 56
	srli	t1, s4, 48
	srli	a1, s4, 40
	srli	a2, s4, 32
	srli	a0, s4, 24
	sb	a5, 42(s0)
	sb	a4, 43(s0)
	sb	a3, 44(s0)
	sb	t2, 45(s0)
	srli	a3, s4, 16
	sb	zero, 38(s0)
	sb	zero, 39(s0)
	sb	s1, 40(s0)
	sb	t3, 41(s0)
	srli	a4, s4, 8
	sb	a3, 50(s0)
	sb	a0, 51(s0)
	sb	a2, 52(s0)
	sb	a1, 53(s0)
	li	a0, 2
	sb	zero, 58(s0)
	sb	zero, 59(s0)
	sb	zero, 60(s0)
	sb	zero, 61(s0)
	sb	zero, 62(s0)
	sb	zero, 63(s0)
	slli	s2, s2, 2
	sb	a7, 46(s0)
	sb	a6, 47(s0)
	sb	s4, 48(s0)
	sb	a4, 49(s0)
.Lnoise_pcrel_hi67:
	auipc	a1, %pcrel_hi(.Lnoise_switch.table.noise_stream_read)
	sb	t1, 54(s0)
	sb	t0, 55(s0)
	sb	a0, 56(s0)
	sb	zero, 57(s0)
	addi	a0, a1, %pcrel_lo(.Lnoise_pcrel_hi67)
	add	a0, a0, s2
	lw	a0, 0(a0)
.Lnoise_BB82_17:
	ld	ra, 184(sp)
	ld	s0, 176(sp)
	ld	s1, 168(sp)
	ld	s2, 160(sp)
	ld	s3, 152(sp)
	ld	s4, 144(sp)
	ld	s5, 136(sp)
	ld	s6, 128(sp)
	ld	s7, 120(sp)
	ld	s8, 112(sp)
	ld	s9, 104(sp)
	ld	s10, 96(sp)
	.cfi_restore ra
	.cfi_restore s0
	.cfi_restore s1
	.cfi_restore s2
	.cfi_restore s3
	.cfi_restore s4
	.cfi_restore s5
	.cfi_restore s6
	.cfi_restore s7
	.cfi_restore s8
	.cfi_restore s9
	.cfi_restore s10
	addi	sp, sp, 192
	.cfi_def_cfa_offset 0
	ret
.Lnoise_BB82_18:
	.cfi_restore_state
	addi	s2, sp, 24
	addi	a4, a4, 2
.Lnoise_pcrel_hi66:
	auipc	a2, %pcrel_hi(.Lnoise_static.1)
	addi	a2, a2, %pcrel_lo(.Lnoise_pcrel_hi66)
	addi	a0, sp, 80
	mv	a1, s2
	li	a3, 0
	call	noise_noise_state_cipher_CipherState_decrypt
	lbu	a0, 80(sp)
	beqz	a0, .Lnoise_BB82_22
	lbu	a0, 81(sp)
	li	a1, 1
	blt	a1, a0, .Lnoise_BB82_28
	mv	s0, s4
	bnez	a0, .Lnoise_BB82_30
	li	s2, 2
	j	.Lnoise_BB82_15
.Lnoise_BB82_22:
	ld	a0, 16(sp)
	ld	s1, 88(sp)
	beqz	a0, .Lnoise_BB82_25
	ld	a1, 64(sp)
	remu	a0, a1, a0
	bnez	a0, .Lnoise_BB82_25
	mv	a0, s2
	call	noise_noise_state_cipher_CipherState_rekey
.Lnoise_BB82_25:
	beqz	s1, .Lnoise_BB82_31
	li	a1, 2
	lbu	a2, 24(sp)
	li	a0, 1
	sd	a1, 0(s5)
	sd	s1, 8(s5)
	sd	s0, 16(s5)
	bne	a2, a0, .Lnoise_BB82_33
	mv	s0, s4
	lbu	s2, 72(sp)
	lbu	a1, 8(sp)
	lbu	a2, 9(sp)
	ld	s1, 16(sp)
	ld	s4, 64(sp)
	li	a3, 78
	li	a4, 111
	li	a5, 11
	sb	a0, 0(s0)
	sb	a5, 1(s0)
	sb	a4, 2(s0)
	sb	a3, 3(s0)
	andi	a2, a2, 1
	snez	a0, a1
	addi	a0, a0, 1
	sb	a0, 4(s0)
	sb	a2, 5(s0)
	li	a2, 32
	mv	a0, s3
	mv	a1, s6
	call	memcpy
	li	a0, 0
	srli	a6, s1, 56
	srli	a7, s1, 48
	srli	t0, s1, 40
	srli	a4, s1, 32
	srli	a5, s1, 24
	srli	a1, s1, 16
	srli	t1, s1, 8
	srli	a3, s4, 40
	srli	a2, s4, 32
	sb	a1, 42(s0)
	sb	a5, 43(s0)
	sb	a4, 44(s0)
	sb	t0, 45(s0)
	srli	a1, s4, 24
	sb	zero, 38(s0)
	sb	zero, 39(s0)
	sb	s1, 40(s0)
	sb	t1, 41(s0)
	srli	a4, s4, 16
	sb	a4, 50(s0)
	sb	a1, 51(s0)
	sb	a2, 52(s0)
	sb	a3, 53(s0)
	srli	a1, s4, 8
	sb	a7, 46(s0)
	sb	a6, 47(s0)
	sb	s4, 48(s0)
	sb	a1, 49(s0)
	srli	a1, s4, 56
	srli	a2, s4, 48
	sb	zero, 58(s0)
	sb	zero, 59(s0)
	sb	zero, 60(s0)
	sb	zero, 61(s0)
	sb	a2, 54(s0)
	sb	a1, 55(s0)
	sb	s2, 56(s0)
	sb	zero, 57(s0)
	sb	zero, 62(s0)
	sb	zero, 63(s0)
	j	.Lnoise_BB82_17
.Lnoise_BB82_28:
	li	a1, 2
	bne	a0, a1, .Lnoise_BB82_33
	mv	s0, s4
	li	s2, 0
	j	.Lnoise_BB82_15
.Lnoise_BB82_30:
	li	s2, 1
	j	.Lnoise_BB82_15
.Lnoise_BB82_31:
	lbu	a0, 24(sp)
	li	s2, 1
	sd	s0, 16(s5)
	bne	a0, s2, .Lnoise_BB82_33
	mv	s0, s4
	lbu	a0, 8(sp)
	lbu	a1, 9(sp)
	ld	s1, 16(sp)
	ld	s4, 64(sp)
	li	a2, 78
	li	a3, 111
	li	a4, 11
	sb	s2, 0(s0)
	sb	a4, 1(s0)
	sb	a3, 2(s0)
	sb	a2, 3(s0)
	andi	a1, a1, 1
	snez	a0, a0
	addi	a0, a0, 1
	sb	a0, 4(s0)
	sb	a1, 5(s0)
	li	a2, 32
	mv	a0, s3
	mv	a1, s6
	call	memcpy
	srli	a6, s1, 56
	srli	a7, s1, 48
	srli	t2, s1, 40
	srli	a3, s1, 32
	srli	a4, s1, 24
	srli	a5, s1, 16
	srli	a0, s1, 8
	srli	t0, s4, 56
	srli	t1, s4, 48
	srli	a1, s4, 40
	srli	a2, s4, 32
	sb	a5, 42(s0)
	sb	a4, 43(s0)
	sb	a3, 44(s0)
	sb	t2, 45(s0)
	srli	a3, s4, 24
	sb	zero, 38(s0)
	sb	zero, 39(s0)
	sb	s1, 40(s0)
	sb	a0, 41(s0)
	srli	a0, s4, 16
	sb	a0, 50(s0)
	sb	a3, 51(s0)
	sb	a2, 52(s0)
	sb	a1, 53(s0)
	srli	a0, s4, 8
	sb	zero, 58(s0)
	sb	zero, 59(s0)
	sb	zero, 60(s0)
	sb	zero, 61(s0)
	sb	zero, 62(s0)
	sb	zero, 63(s0)
	sb	a7, 46(s0)
	sb	a6, 47(s0)
	sb	s4, 48(s0)
	sb	a0, 49(s0)
	sb	t1, 54(s0)
	sb	t0, 55(s0)
	sb	s2, 56(s0)
	sb	zero, 57(s0)
	li	a0, 41
	j	.Lnoise_BB82_17
.Lnoise_BB82_33:
	unimp
.Lnoise_func_end82:
	.size	noise_stream_read, .Lnoise_func_end82-noise_stream_read
	.cfi_endproc

	.section	.text.noise_stream_end,"ax",@progbits
	.globl	noise_stream_end
	.p2align	1
	.type	noise_stream_end,@function
noise_stream_end:
	.cfi_startproc
	addi	sp, sp, -192
	.cfi_def_cfa_offset 192
	sd	ra, 184(sp)
	sd	s0, 176(sp)
	sd	s1, 168(sp)
	sd	s2, 160(sp)
	sd	s3, 152(sp)
	sd	s4, 144(sp)
	sd	s5, 136(sp)
	sd	s6, 128(sp)
	sd	s7, 120(sp)
	sd	s8, 112(sp)
	sd	s9, 104(sp)
	sd	s10, 96(sp)
	.cfi_offset ra, -8
	.cfi_offset s0, -16
	.cfi_offset s1, -24
	.cfi_offset s2, -32
	.cfi_offset s3, -40
	.cfi_offset s4, -48
	.cfi_offset s5, -56
	.cfi_offset s6, -64
	.cfi_offset s7, -72
	.cfi_offset s8, -80
	.cfi_offset s9, -88
	.cfi_offset s10, -96
	.cfi_remember_state
	mv	s0, a0
	lw	a4, 0(a0)
	lui	a0, 321265
	addi	a5, a0, -1535
	li	a0, 23
	bne	a4, a5, .Lnoise_BB83_21
	lbu	a4, 4(s0)
	li	a5, 1
	beq	a4, a5, .Lnoise_BB83_6
	li	a5, 2
	bne	a4, a5, .Lnoise_BB83_21
	li	s2, 1
	li	a5, 1
	lbu	a4, 5(s0)
	ld	a6, 40(s0)
	lbu	s1, 56(s0)
	ld	s7, 48(s0)
	snez	s8, a4
	beqz	s1, .Lnoise_BB83_7
.Lnoise_BB83_4:
	and	a4, s2, s8
	bnez	a4, .Lnoise_BB83_21
	bnez	s7, .Lnoise_BB83_8
	j	.Lnoise_BB83_21
.Lnoise_BB83_6:
	li	s2, 0
	li	a5, 0
	lbu	a4, 5(s0)
	ld	a6, 40(s0)
	lbu	s1, 56(s0)
	ld	s7, 48(s0)
	snez	s8, a4
	bnez	s1, .Lnoise_BB83_4
.Lnoise_BB83_7:
	li	a4, -1
	beq	s7, a4, .Lnoise_BB83_21
.Lnoise_BB83_8:
	mv	s9, a1
	mv	s5, a3
	mv	s6, s0
	addi	s3, s0, 6
	snez	s10, s1
	sb	a5, 8(sp)
	sb	s8, 9(sp)
	sh	zero, 10(sp)
	sh	zero, 12(sp)
	li	a0, 1
	sh	zero, 14(sp)
	sd	a6, 16(sp)
	sb	a0, 24(sp)
	addi	s4, sp, 25
	mv	s0, a2
	li	a2, 32
	mv	a0, s4
	mv	a1, s3
	call	memcpy
	mv	a1, s0
	sb	zero, 57(sp)
	sb	zero, 58(sp)
	sb	zero, 59(sp)
	sb	zero, 60(sp)
	sb	zero, 61(sp)
	sb	zero, 62(sp)
	sb	zero, 63(sp)
	sd	s7, 64(sp)
	sb	s10, 72(sp)
	sb	zero, 73(sp)
	sb	zero, 74(sp)
	sb	zero, 75(sp)
	sb	zero, 76(sp)
	sb	zero, 77(sp)
	sb	zero, 78(sp)
	sb	zero, 79(sp)
	li	a2, 18
	li	a0, 18
	bltu	s0, a2, .Lnoise_BB83_10
	li	a0, 43
.Lnoise_BB83_10:
	bltu	a1, a2, .Lnoise_BB83_21
	bnez	s1, .Lnoise_BB83_21
	and	a0, s2, s8
	beqz	a0, .Lnoise_BB83_14
	li	a0, 22
	j	.Lnoise_BB83_21
.Lnoise_BB83_14:
	li	a0, -1
	beq	s7, a0, .Lnoise_BB83_22
	seqz	a0, s9
	addi	s2, sp, 24
	slli	a0, a0, 12
	add	s8, s9, a0
	addi	a4, s8, 2
	sd	zero, 80(sp)
	sd	zero, 88(sp)
.Lnoise_pcrel_hi68:
	auipc	a2, %pcrel_hi(.Lnoise_static.1)
	addi	a2, a2, %pcrel_lo(.Lnoise_pcrel_hi68)
	addi	a0, sp, 80
	mv	a1, s2
	li	a3, 0
	li	a5, 0
	call	noise_noise_state_cipher_CipherState_encrypt
	lbu	a0, 80(sp)
	bnez	a0, .Lnoise_BB83_22
	ld	s9, 88(sp)
	ld	s1, 16(sp)
	ld	s7, 64(sp)
	mv	s0, s6
	mv	a0, s5
	beqz	s1, .Lnoise_BB83_19
	remu	a1, s7, s1
	bnez	a1, .Lnoise_BB83_19
	mv	a0, s2
	call	noise_noise_state_cipher_CipherState_rekey
	mv	a0, s5
	mv	s0, s6
	ld	s1, 16(sp)
	ld	s7, 64(sp)
.Lnoise_BB83_19:
	srli	a1, s9, 8
	lbu	a2, 24(sp)
	sb	a1, 0(s8)
	sb	s9, 1(s8)
	addi	s9, s9, 2
	li	s2, 1
	sd	s9, 8(a0)
	bne	a2, s2, .Lnoise_BB83_22
	lbu	a0, 8(sp)
	lbu	a1, 9(sp)
	li	a2, 78
	li	a3, 111
	li	a4, 10
	sb	s2, 0(s0)
	sb	a4, 1(s0)
	sb	a3, 2(s0)
	sb	a2, 3(s0)
	andi	a1, a1, 1
	snez	a0, a0
	addi	a0, a0, 1
	sb	a0, 4(s0)
	sb	a1, 5(s0)
	li	a2, 32
	mv	a0, s3
	mv	a1, s4
	call	memcpy
	li	a0, 0
	srli	a6, s1, 56
	srli	a7, s1, 48
	srli	t0, s1, 40
	srli	a4, s1, 32
	srli	a5, s1, 24
	srli	a1, s1, 16
	srli	t1, s1, 8
	srli	a3, s7, 40
	srli	a2, s7, 32
	sb	a1, 42(s0)
	sb	a5, 43(s0)
	sb	a4, 44(s0)
	sb	t0, 45(s0)
	srli	a1, s7, 24
	sb	zero, 38(s0)
	sb	zero, 39(s0)
	sb	s1, 40(s0)
	sb	t1, 41(s0)
	srli	a4, s7, 16
	sb	a4, 50(s0)
	sb	a1, 51(s0)
	sb	a2, 52(s0)
	sb	a3, 53(s0)
	srli	a1, s7, 8
	sb	a7, 46(s0)
	sb	a6, 47(s0)
	sb	s7, 48(s0)
	sb	a1, 49(s0)
	srli	a1, s7, 56
	srli	a2, s7, 48
	sb	zero, 58(s0)
	sb	zero, 59(s0)
	sb	zero, 60(s0)
	sb	zero, 61(s0)
	sb	a2, 54(s0)
	sb	a1, 55(s0)
	sb	s2, 56(s0)
	sb	zero, 57(s0)
	sb	zero, 62(s0)
	sb	zero, 63(s0)
.Lnoise_BB83_21:
	ld	ra, 184(sp)
	ld	s0, 176(sp)
	ld	s1, 168(sp)
	ld	s2, 160(sp)
	ld	s3, 152(sp)
	ld	s4, 144(sp)
	ld	s5, 136(sp)
	ld	s6, 128(sp)
	ld	s7, 120(sp)
	ld	s8, 112(sp)
	ld	s9, 104(sp)
	ld	s10, 96(sp)
	.cfi_restore ra
	.cfi_restore s0
	.cfi_restore s1
	.cfi_restore s2
	.cfi_restore s3
	.cfi_restore s4
	.cfi_restore s5
	.cfi_restore s6
	.cfi_restore s7
	.cfi_restore s8
	.cfi_restore s9
	.cfi_restore s10
	addi	sp, sp, 192
	.cfi_def_cfa_offset 0
	ret
.Lnoise_BB83_22:
	.cfi_restore_state
	unimp
.Lnoise_func_end83:
	.size	noise_stream_end, .Lnoise_func_end83-noise_stream_end
	.cfi_endproc

	.section	.text.noise_stream_write,"ax",@progbits
	.globl	noise_stream_write
	.p2align	1
	.type	noise_stream_write,@function
noise_stream_write:
	.cfi_startproc
	addi	sp, sp, -224
	.cfi_def_cfa_offset 224
	sd	ra, 216(sp)
	sd	s0, 208(sp)
	sd	s1, 200(sp)
	sd	s2, 192(sp)
	sd	s3, 184(sp)
	sd	s4, 176(sp)
	sd	s5, 168(sp)
	sd	s6, 160(sp)
	sd	s7, 152(sp)
	sd	s8, 144(sp)
	sd	s9, 136(sp)
	sd	s10, 128(sp)
	sd	s11, 120(sp)
	.cfi_offset ra, -8
	.cfi_offset s0, -16
	.cfi_offset s1, -24
	.cfi_offset s2, -32
	.cfi_offset s3, -40
	.cfi_offset s4, -48
	.cfi_offset s5, -56
	.cfi_offset s6, -64
	.cfi_offset s7, -72
	.cfi_offset s8, -80
	.cfi_offset s9, -88
	.cfi_offset s10, -96
	.cfi_offset s11, -104
	.cfi_remember_state
	mv	s2, a0
	lw	s1, 0(a0)
	lui	a0, 321265
	addi	s0, a0, -1535
	li	a0, 23
	bne	s1, s0, .Lnoise_BB84_33
	lbu	s1, 4(s2)
	li	s0, 1
	beq	s1, s0, .Lnoise_BB84_6
	li	s0, 2
	bne	s1, s0, .Lnoise_BB84_33
	li	s10, 1
	li	s3, 1
	lbu	s6, 5(s2)
	ld	s9, 40(s2)
	lbu	s1, 56(s2)
	ld	s11, 48(s2)
	beqz	s1, .Lnoise_BB84_7
.Lnoise_BB84_4:
	snez	s0, s6
	and	s0, s10, s0
	bnez	s0, .Lnoise_BB84_33
	bnez	s11, .Lnoise_BB84_8
	j	.Lnoise_BB84_33
.Lnoise_BB84_6:
	li	s10, 0
	li	s3, 0
	lbu	s6, 5(s2)
	ld	s9, 40(s2)
	lbu	s1, 56(s2)
	ld	s11, 48(s2)
	bnez	s1, .Lnoise_BB84_4
.Lnoise_BB84_7:
	li	s0, -1
	beq	s11, s0, .Lnoise_BB84_33
.Lnoise_BB84_8:
	mv	s8, a4
	mv	s5, a3
	mv	s7, a1
	sd	a5, 24(sp)
	snez	s4, s6
	sd	s2, 16(sp)
	addi	a1, s2, 6
	snez	s2, s1
	li	a0, 1
	sb	s3, 32(sp)
	sb	s4, 33(sp)
	sh	zero, 34(sp)
	sh	zero, 36(sp)
	sh	zero, 38(sp)
	sd	s9, 40(sp)
	sb	a0, 48(sp)
	addi	a0, sp, 49
	mv	s0, a2
	li	a2, 32
	sd	a1, 8(sp)
	call	memcpy
	mv	a1, s0
	sb	zero, 81(sp)
	sb	zero, 82(sp)
	sb	zero, 83(sp)
	sb	zero, 84(sp)
	sb	zero, 85(sp)
	sb	zero, 86(sp)
	sb	zero, 87(sp)
	sd	s11, 88(sp)
	sb	s2, 96(sp)
	sb	zero, 97(sp)
	sb	zero, 98(sp)
	sb	zero, 99(sp)
	sb	zero, 100(sp)
	sb	zero, 101(sp)
	sb	zero, 102(sp)
	sb	zero, 103(sp)
	lui	a2, 16
	addi	a2, a2, -17
	snez	a0, s0
	mv	s2, s0
	bltu	s0, a2, .Lnoise_BB84_10
	mv	s2, a2
.Lnoise_BB84_10:
	addi	a2, s2, 18
	sltu	a4, s8, a2
	and	a4, a4, a0
	bnez	a4, .Lnoise_BB84_12
	li	a0, 43
	ld	a3, 16(sp)
	ld	a2, 24(sp)
	beqz	a4, .Lnoise_BB84_13
	j	.Lnoise_BB84_33
.Lnoise_BB84_12:
	li	a0, 18
	ld	a3, 16(sp)
	ld	a2, 24(sp)
	bnez	a4, .Lnoise_BB84_33
.Lnoise_BB84_13:
	bnez	s1, .Lnoise_BB84_33
	beqz	a1, .Lnoise_BB84_23
	beqz	s6, .Lnoise_BB84_18
	beqz	s10, .Lnoise_BB84_18
	li	a0, 22
	j	.Lnoise_BB84_33
.Lnoise_BB84_18:
	li	a0, -2
	beq	s11, a0, .Lnoise_BB84_24
	li	a0, -1
	beq	s11, a0, .Lnoise_BB84_34
	seqz	a0, s7
	seqz	a1, s5
	slli	a0, a0, 12
	slli	s0, a1, 12
	add	a1, s7, a0
	add	s0, s0, s5
	addi	s4, s0, 2
	sub	a2, s4, a1
	addi	s3, sp, 48
	bgeu	a2, s2, .Lnoise_BB84_25
	add	a0, a0, s2
	add	s7, s7, a0
	mv	a0, s4
.Lnoise_BB84_22:
	lbu	a2, 0(a1)
	addi	a1, a1, 1
	sb	a2, 0(a0)
	addi	a0, a0, 1
	bne	a1, s7, .Lnoise_BB84_22
	j	.Lnoise_BB84_26
.Lnoise_BB84_23:
	li	s2, 0
	sd	zero, 8(a2)
	sd	zero, 16(a2)
	j	.Lnoise_BB84_32
.Lnoise_BB84_24:
	li	a0, 17
	j	.Lnoise_BB84_33
.Lnoise_BB84_25:
	mv	a0, s4
	mv	a2, s2
	call	memmove
.Lnoise_BB84_26:
	sd	zero, 104(sp)
	sd	zero, 112(sp)
.Lnoise_pcrel_hi69:
	auipc	a2, %pcrel_hi(.Lnoise_static.1)
	addi	a2, a2, %pcrel_lo(.Lnoise_pcrel_hi69)
	addi	a0, sp, 104
	mv	a1, s3
	li	a3, 0
	mv	a4, s4
	mv	a5, s2
	call	noise_noise_state_cipher_CipherState_encrypt
	lbu	a0, 104(sp)
	bnez	a0, .Lnoise_BB84_34
	ld	s1, 112(sp)
	ld	s9, 40(sp)
	ld	s11, 88(sp)
	ld	a3, 16(sp)
	ld	a0, 24(sp)
	beqz	s9, .Lnoise_BB84_30
	remu	a1, s11, s9
	bnez	a1, .Lnoise_BB84_30
	mv	a0, s3
	call	noise_noise_state_cipher_CipherState_rekey
	ld	a0, 24(sp)
	ld	a3, 16(sp)
	ld	s9, 40(sp)
	ld	s11, 88(sp)
.Lnoise_BB84_30:
	srli	a1, s1, 8
	addi	a2, s1, 2
	sb	a1, 0(s0)
	sb	s1, 1(s0)
	lbu	s3, 32(sp)
	lbu	s4, 33(sp)
	lbu	a1, 48(sp)
	lbu	s0, 96(sp)
	li	a4, 1
	sd	a2, 8(a0)
	sd	s2, 16(a0)
	bne	a1, a4, .Lnoise_BB84_34
	andi	s2, s0, 1
.Lnoise_BB84_32:
	andi	a0, s4, 1
	snez	a1, s3
	li	a2, 78
	li	a4, 111
	li	a5, 10
	li	s1, 1
	addi	a1, a1, 1
	sb	s1, 0(a3)
	sb	a5, 1(a3)
	sb	a4, 2(a3)
	sb	a2, 3(a3)
	sb	a1, 4(a3)
	sb	a0, 5(a3)
	li	a2, 32
	mv	s1, a3
	ld	a0, 8(sp)
	addi	a1, sp, 49
	call	memcpy
	li	a0, 0
	srli	a6, s9, 56
	srli	a7, s9, 48
	srli	t0, s9, 40
	srli	a4, s9, 32
	srli	a5, s9, 24
	srli	s0, s9, 16
	srli	a1, s9, 8
	srli	a2, s11, 40
	srli	a3, s11, 32
	sb	s0, 42(s1)
	sb	a5, 43(s1)
	sb	a4, 44(s1)
	sb	t0, 45(s1)
	srli	a4, s11, 24
	sb	zero, 38(s1)
	sb	zero, 39(s1)
	sb	s9, 40(s1)
	sb	a1, 41(s1)
	srli	a1, s11, 16
	sb	a1, 50(s1)
	sb	a4, 51(s1)
	sb	a3, 52(s1)
	sb	a2, 53(s1)
	srli	a1, s11, 8
	sb	a7, 46(s1)
	sb	a6, 47(s1)
	sb	s11, 48(s1)
	sb	a1, 49(s1)
	srli	a1, s11, 56
	srli	a2, s11, 48
	sb	zero, 58(s1)
	sb	zero, 59(s1)
	sb	zero, 60(s1)
	sb	zero, 61(s1)
	sb	a2, 54(s1)
	sb	a1, 55(s1)
	sb	s2, 56(s1)
	sb	zero, 57(s1)
	sb	zero, 62(s1)
	sb	zero, 63(s1)
.Lnoise_BB84_33:
	ld	ra, 216(sp)
	ld	s0, 208(sp)
	ld	s1, 200(sp)
	ld	s2, 192(sp)
	ld	s3, 184(sp)
	ld	s4, 176(sp)
	ld	s5, 168(sp)
	ld	s6, 160(sp)
	ld	s7, 152(sp)
	ld	s8, 144(sp)
	ld	s9, 136(sp)
	ld	s10, 128(sp)
	ld	s11, 120(sp)
	.cfi_restore ra
	.cfi_restore s0
	.cfi_restore s1
	.cfi_restore s2
	.cfi_restore s3
	.cfi_restore s4
	.cfi_restore s5
	.cfi_restore s6
	.cfi_restore s7
	.cfi_restore s8
	.cfi_restore s9
	.cfi_restore s10
	.cfi_restore s11
	addi	sp, sp, 224
	.cfi_def_cfa_offset 0
	ret
.Lnoise_BB84_34:
	.cfi_restore_state
	unimp
.Lnoise_func_end84:
	.size	noise_stream_write, .Lnoise_func_end84-noise_stream_write
	.cfi_endproc

	.section	.text.noise_unset_psk,"ax",@progbits
	.globl	noise_unset_psk
	.p2align	1
	.type	noise_unset_psk,@function
noise_unset_psk:
	.cfi_startproc
	addi	sp, sp, -1216
	.cfi_def_cfa_offset 1216
	sd	ra, 1208(sp)
	sd	s0, 1200(sp)
	sd	s1, 1192(sp)
	sd	s2, 1184(sp)
	sd	s3, 1176(sp)
	sd	s4, 1168(sp)
	sd	s5, 1160(sp)
	.cfi_offset ra, -8
	.cfi_offset s0, -16
	.cfi_offset s1, -24
	.cfi_offset s2, -32
	.cfi_offset s3, -40
	.cfi_offset s4, -48
	.cfi_offset s5, -56
	.cfi_remember_state
	mv	s0, a0
	addi	a0, sp, 288
	li	a2, 872
	li	a1, 0
	call	memset
	lw	a0, 0(s0)
	lui	a1, 321264
	addi	a1, a1, 257
	bne	a0, a1, .Lnoise_BB85_8
	lhu	a2, 420(s0)
	li	a0, 416
	bltu	a0, a2, .Lnoise_BB85_8
	lbu	a0, 846(s0)
	li	a1, 8
	bltu	a1, a0, .Lnoise_BB85_8
	lbu	a0, 557(s0)
	li	a1, 9
	bltu	a1, a0, .Lnoise_BB85_8
	addi	a1, s0, 4
	addi	a0, sp, 8
	call	noise_noise_c_patterns_pattern_of
	lbu	a0, 8(sp)
	bnez	a0, .Lnoise_BB85_8
	addi	a2, sp, 16
	addi	a0, sp, 288
	mv	a1, s0
	call	noise_noise_c_from_c_restored
	lbu	a0, 288(sp)
	li	a1, 1
	bne	a0, a1, .Lnoise_BB85_8
	lbu	s5, 557(s0)
	beqz	s5, .Lnoise_BB85_10
	addi	s2, s0, 558
	addi	s3, s0, 782
	addi	a0, s0, 814
	li	a2, 32
	mv	a1, s3
	call	memcpy
	addi	s1, s0, 750
	li	a2, 32
	mv	a0, s3
	mv	a1, s1
	call	memcpy
	addi	s3, s0, 718
	li	a2, 32
	mv	a0, s1
	mv	a1, s3
	call	memcpy
	addi	s1, s0, 686
	li	a2, 32
	mv	a0, s3
	mv	a1, s1
	call	memcpy
	addi	s3, s0, 654
	li	a2, 32
	mv	a0, s1
	mv	a1, s3
	call	memcpy
	addi	s4, s0, 622
	li	a2, 32
	mv	a0, s3
	mv	a1, s4
	call	memcpy
	addi	s1, s0, 590
	li	a2, 32
	mv	a0, s4
	mv	a1, s1
	call	memcpy
	li	a2, 32
	mv	a0, s1
	mv	a1, s2
	call	memcpy
	li	a2, 32
	mv	a0, s2
	li	a1, 0
	call	memset
	li	a0, 0
	addi	s5, s5, -1
	sb	s5, 557(s0)
	j	.Lnoise_BB85_9
.Lnoise_BB85_8:
	li	a0, 23
.Lnoise_BB85_9:
	ld	ra, 1208(sp)
	ld	s0, 1200(sp)
	ld	s1, 1192(sp)
	ld	s2, 1184(sp)
	ld	s3, 1176(sp)
	ld	s4, 1168(sp)
	ld	s5, 1160(sp)
	.cfi_restore ra
	.cfi_restore s0
	.cfi_restore s1
	.cfi_restore s2
	.cfi_restore s3
	.cfi_restore s4
	.cfi_restore s5
	addi	sp, sp, 1216
	.cfi_def_cfa_offset 0
	ret
.Lnoise_BB85_10:
	.cfi_restore_state
	li	a0, 0
	j	.Lnoise_BB85_9
.Lnoise_func_end85:
	.size	noise_unset_psk, .Lnoise_func_end85-noise_unset_psk
	.cfi_endproc

	.section	.text.noise_check_pattern,"ax",@progbits
	.globl	noise_check_pattern
	.p2align	1
	.type	noise_check_pattern,@function
noise_check_pattern:
	.cfi_startproc
	addi	sp, sp, -592
	.cfi_def_cfa_offset 592
	sd	ra, 584(sp)
	sd	s0, 576(sp)
	sd	s1, 568(sp)
	sd	s2, 560(sp)
	.cfi_offset ra, -8
	.cfi_offset s0, -16
	.cfi_offset s1, -24
	.cfi_offset s2, -32
	.cfi_remember_state
	mv	s2, a2
	mv	s1, a1
	seqz	a1, a0
	slli	a1, a1, 12
	add	s0, a0, a1
	addi	a0, sp, 280
	li	a2, 280
	li	a1, 0
	call	memset
	addi	a0, sp, 280
	mv	a1, s0
	mv	a2, s1
	call	noise_noise_names_pattern_Pattern_parse_text
	lbu	a0, 280(sp)
	beqz	a0, .Lnoise_BB86_2
	ld	a0, 288(sp)
	lbu	a1, 296(sp)
	sd	a0, 0(s2)
	addi	a0, a1, 30
	ld	ra, 584(sp)
	ld	s0, 576(sp)
	ld	s1, 568(sp)
	ld	s2, 560(sp)
	.cfi_restore ra
	.cfi_restore s0
	.cfi_restore s1
	.cfi_restore s2
	addi	sp, sp, 592
	.cfi_def_cfa_offset 0
	ret
.Lnoise_BB86_2:
	.cfi_restore_state
	.cfi_remember_state
	addi	a1, sp, 288
	addi	a0, sp, 8
	li	a2, 272
	call	memcpy
	addi	a0, sp, 280
	li	a2, 280
	li	a1, 0
	call	memset
	addi	a0, sp, 280
	addi	a1, sp, 8
	call	noise_noise_names_pattern_Pattern_check
	lbu	a0, 280(sp)
	beqz	a0, .Lnoise_BB86_4
	lbu	a0, 281(sp)
	lbu	a1, 282(sp)
	lbu	a2, 283(sp)
	sb	a0, 8(s2)
	sb	a1, 9(s2)
	sb	a2, 10(s2)
	li	a0, 39
	ld	ra, 584(sp)
	ld	s0, 576(sp)
	ld	s1, 568(sp)
	ld	s2, 560(sp)
	.cfi_restore ra
	.cfi_restore s0
	.cfi_restore s1
	.cfi_restore s2
	addi	sp, sp, 592
	.cfi_def_cfa_offset 0
	ret
.Lnoise_BB86_4:
	.cfi_restore_state
	ld	a1, 552(sp)
	sb	a1, 11(s2)
	ld	ra, 584(sp)
	ld	s0, 576(sp)
	ld	s1, 568(sp)
	ld	s2, 560(sp)
	.cfi_restore ra
	.cfi_restore s0
	.cfi_restore s1
	.cfi_restore s2
	addi	sp, sp, 592
	.cfi_def_cfa_offset 0
	ret
.Lnoise_func_end86:
	.size	noise_check_pattern, .Lnoise_func_end86-noise_check_pattern
	.cfi_endproc

	.section	.text.noise_pattern,"ax",@progbits
	.globl	noise_pattern
	.p2align	1
	.type	noise_pattern,@function
noise_pattern:
	.cfi_startproc
	addi	sp, sp, -496
	.cfi_def_cfa_offset 496
	sd	ra, 488(sp)
	sd	s0, 480(sp)
	sd	s1, 472(sp)
	sd	s2, 464(sp)
	sd	s3, 456(sp)
	sd	s4, 448(sp)
	sd	s5, 440(sp)
	sd	s6, 432(sp)
	sd	s7, 424(sp)
	sd	s8, 416(sp)
	sd	s9, 408(sp)
	sd	s10, 400(sp)
	sd	s11, 392(sp)
	.cfi_offset ra, -8
	.cfi_offset s0, -16
	.cfi_offset s1, -24
	.cfi_offset s2, -32
	.cfi_offset s3, -40
	.cfi_offset s4, -48
	.cfi_offset s5, -56
	.cfi_offset s6, -64
	.cfi_offset s7, -72
	.cfi_offset s8, -80
	.cfi_offset s9, -88
	.cfi_offset s10, -96
	.cfi_offset s11, -104
	addi	sp, sp, -1808
	.cfi_def_cfa_offset 2304
	.cfi_remember_state
	mv	s2, a3
	mv	s3, a2
	mv	s0, a1
	seqz	a1, a0
	slli	a1, a1, 12
	add	s1, a0, a1
	addi	a0, sp, 1016
	li	a2, 272
	li	a1, 0
	call	memset
	addi	a0, sp, 744
	li	a2, 272
	li	a1, 0
	call	memset
	beqz	s0, .Lnoise_BB87_4
	add	a0, s1, s0
	lbu	a0, -1(a0)
	li	a1, 10
	bne	a0, a1, .Lnoise_BB87_4
	addi	a0, sp, 1920
	li	a2, 280
	li	a1, 0
	call	memset
	addi	a0, sp, 1920
	mv	a1, s1
	mv	a2, s0
	call	noise_noise_names_pattern_Pattern_parse_text
	lbu	a0, 1920(sp)
	beqz	a0, .Lnoise_BB87_24
	ld	a0, 1928(sp)
	lbu	a1, 1936(sp)
	sd	a0, 0(s2)
	addi	a0, a1, 30
	j	.Lnoise_BB87_6
.Lnoise_BB87_4:
	sd	zero, 1832(sp)
	sd	zero, 1840(sp)
	sd	zero, 1848(sp)
	sd	zero, 1856(sp)
	sd	zero, 1864(sp)
	sd	zero, 1872(sp)
	addi	a0, sp, 1920
	li	a2, 280
	li	a1, 0
	call	memset
	addi	a0, sp, 1832
	mv	a1, s1
	mv	a2, s0
	call	noise_noise_names_name_ProtocolName_parse
	lbu	a0, 1832(sp)
	beqz	a0, .Lnoise_BB87_7
.Lnoise_BB87_5:
	li	a0, 1
.Lnoise_BB87_6:
	addi	sp, sp, 1808
	.cfi_def_cfa_offset 496
	ld	ra, 488(sp)
	ld	s0, 480(sp)
	ld	s1, 472(sp)
	ld	s2, 464(sp)
	ld	s3, 456(sp)
	ld	s4, 448(sp)
	ld	s5, 440(sp)
	ld	s6, 432(sp)
	ld	s7, 424(sp)
	ld	s8, 416(sp)
	ld	s9, 408(sp)
	ld	s10, 400(sp)
	ld	s11, 392(sp)
	.cfi_restore ra
	.cfi_restore s0
	.cfi_restore s1
	.cfi_restore s2
	.cfi_restore s3
	.cfi_restore s4
	.cfi_restore s5
	.cfi_restore s6
	.cfi_restore s7
	.cfi_restore s8
	.cfi_restore s9
	.cfi_restore s10
	.cfi_restore s11
	addi	sp, sp, 496
	.cfi_def_cfa_offset 0
	ret
.Lnoise_BB87_7:
	.cfi_restore_state
	ld	a0, 1872(sp)
	sd	a0, 1912(sp)
	ld	a1, 1840(sp)
	ld	a0, 1848(sp)
	ld	a2, 1856(sp)
	ld	a3, 1864(sp)
	sd	a1, 1880(sp)
	sd	a0, 1888(sp)
	sd	a2, 1896(sp)
	sd	a3, 1904(sp)
	beqz	a0, .Lnoise_BB87_5
	li	a1, 1
	bne	a0, a1, .Lnoise_BB87_13
	lbu	a0, 1840(sp)
	li	a1, 88
	beq	a0, a1, .Lnoise_BB87_22
	li	a1, 78
	beq	a0, a1, .Lnoise_BB87_21
	li	a1, 75
	bne	a0, a1, .Lnoise_BB87_5
	li	a1, 1
	j	.Lnoise_BB87_23
.Lnoise_BB87_13:
	li	a1, 2
	bltu	a1, a0, .Lnoise_BB87_5
	lbu	a0, 1840(sp)
	li	a1, 77
	blt	a1, a0, .Lnoise_BB87_45
	li	a1, 73
	beq	a0, a1, .Lnoise_BB87_147
	li	a1, 75
	bne	a0, a1, .Lnoise_BB87_5
	lbu	a0, 1841(sp)
	li	a1, 88
	beq	a0, a1, .Lnoise_BB87_181
	li	a1, 78
	beq	a0, a1, .Lnoise_BB87_177
	li	a1, 75
	bne	a0, a1, .Lnoise_BB87_5
	li	a1, 7
	j	.Lnoise_BB87_23
.Lnoise_BB87_21:
	li	a1, 0
	j	.Lnoise_BB87_23
.Lnoise_BB87_22:
	li	a1, 2
.Lnoise_BB87_23:
	addi	a0, sp, 1560
	call	noise_noise_names_table_row
	addi	a2, sp, 1896
	addi	a0, sp, 1920
	addi	a1, sp, 1560
	call	noise_noise_names_pattern_Pattern_with_psks
	lbu	a0, 1920(sp)
	bnez	a0, .Lnoise_BB87_5
.Lnoise_BB87_24:
	addi	a1, sp, 1928
	addi	a0, sp, 1288
	li	a2, 272
	call	memcpy
	addi	a0, sp, 1560
	addi	a1, sp, 1288
	li	a2, 272
	call	memcpy
	addi	a0, sp, 1920
	li	a2, 280
	li	a1, 0
	call	memset
	addi	a0, sp, 1920
	addi	a1, sp, 1560
	call	noise_noise_names_pattern_Pattern_check
	lbu	a0, 1920(sp)
	beqz	a0, .Lnoise_BB87_26
	lbu	a0, 1921(sp)
	lbu	a1, 1922(sp)
	lbu	a2, 1923(sp)
	sb	a0, 8(s2)
	sb	a1, 9(s2)
	sb	a2, 10(s2)
	li	a0, 39
	j	.Lnoise_BB87_6
.Lnoise_BB87_26:
	addi	a1, sp, 1928
	addi	a0, sp, 744
	li	a2, 272
	call	memcpy
	addi	a0, sp, 1016
	addi	a1, sp, 744
	li	a2, 272
	call	memcpy
	ld	t2, 1280(sp)
	addi	t0, sp, 1088
	li	t6, 0
	beqz	t2, .Lnoise_BB87_34
	mv	a0, t2
	mv	a1, t0
	j	.Lnoise_BB87_29
.Lnoise_BB87_28:
	addi	a1, a1, 24
	addi	a0, a0, -1
	add	t6, t6, a4
	beqz	a0, .Lnoise_BB87_34
.Lnoise_BB87_29:
	li	a4, 0
	ld	a5, 16(a1)
	mv	a3, a1
.Lnoise_BB87_30:
	mv	a2, a3
.Lnoise_BB87_31:
	beqz	a5, .Lnoise_BB87_28
	lbu	s1, 0(a2)
	addi	a3, a2, 1
	li	s0, 6
	addi	a5, a5, -1
	mv	a2, a3
	bne	s1, s0, .Lnoise_BB87_31
	addi	a4, a4, 1
	j	.Lnoise_BB87_30
.Lnoise_BB87_34:
	ld	a7, 1064(sp)
	ld	a6, 1080(sp)
	addi	a5, sp, 1056
	addi	s1, sp, 1072
	mv	a1, a5
	mv	a0, a7
.Lnoise_BB87_35:
	beqz	a0, .Lnoise_BB87_37
	lbu	a2, 0(a1)
	addi	a1, a1, 1
	addi	a0, a0, -1
	bnez	a2, .Lnoise_BB87_35
	j	.Lnoise_BB87_44
.Lnoise_BB87_37:
	beqz	t2, .Lnoise_BB87_51
	li	a0, 0
	mv	a1, t2
	mv	a3, t0
	j	.Lnoise_BB87_40
.Lnoise_BB87_39:
	addi	a3, a3, 24
	addi	a1, a1, -1
	xori	a0, a0, 1
	beqz	a1, .Lnoise_BB87_51
.Lnoise_BB87_40:
	bnez	a0, .Lnoise_BB87_39
	ld	a4, 16(a3)
	mv	a2, a3
.Lnoise_BB87_42:
	beqz	a4, .Lnoise_BB87_39
	lbu	s0, 0(a2)
	addi	a2, a2, 1
	addi	a4, a4, -1
	bnez	s0, .Lnoise_BB87_42
.Lnoise_BB87_44:
	li	t1, 1
	j	.Lnoise_BB87_52
.Lnoise_BB87_45:
	li	a1, 88
	beq	a0, a1, .Lnoise_BB87_151
	li	a1, 78
	bne	a0, a1, .Lnoise_BB87_5
	lbu	a0, 1841(sp)
	li	a1, 88
	beq	a0, a1, .Lnoise_BB87_182
	li	a1, 78
	beq	a0, a1, .Lnoise_BB87_178
	li	a1, 75
	bne	a0, a1, .Lnoise_BB87_5
	li	a1, 4
	j	.Lnoise_BB87_23
.Lnoise_BB87_51:
	li	t1, 0
.Lnoise_BB87_52:
	mv	a1, a5
	mv	a0, a7
.Lnoise_BB87_53:
	beqz	a0, .Lnoise_BB87_56
	lbu	a2, 0(a1)
	addi	a1, a1, 1
	li	a3, 1
	addi	a0, a0, -1
	bne	a2, a3, .Lnoise_BB87_53
	li	a0, 256
	sd	a0, 600(sp)
	j	.Lnoise_BB87_66
.Lnoise_BB87_56:
	beqz	t2, .Lnoise_BB87_65
	mv	t3, t1
	li	a1, 0
	mv	t1, t2
	mv	a4, t0
	j	.Lnoise_BB87_59
.Lnoise_BB87_58:
	addi	a4, a4, 24
	addi	t1, t1, -1
	xori	a1, a1, 1
	beqz	t1, .Lnoise_BB87_176
.Lnoise_BB87_59:
	bnez	a1, .Lnoise_BB87_58
	ld	a3, 16(a4)
	mv	a2, a4
.Lnoise_BB87_61:
	beqz	a3, .Lnoise_BB87_58
	lbu	s0, 0(a2)
	addi	a2, a2, 1
	li	a0, 1
	addi	a3, a3, -1
	bne	s0, a0, .Lnoise_BB87_61
	li	a0, 256
	sd	a0, 600(sp)
.Lnoise_BB87_64:
	mv	t1, t3
	j	.Lnoise_BB87_66
.Lnoise_BB87_65:
	sd	zero, 600(sp)
.Lnoise_BB87_66:
	mv	a0, s1
	mv	a1, a6
.Lnoise_BB87_67:
	mv	s0, a1
	beqz	a1, .Lnoise_BB87_69
	lbu	a2, 0(a0)
	addi	a0, a0, 1
	addi	a1, s0, -1
	bnez	a2, .Lnoise_BB87_67
.Lnoise_BB87_69:
	mv	a0, s1
	mv	a2, a6
.Lnoise_BB87_70:
	mv	a1, a2
	beqz	a2, .Lnoise_BB87_72
	lbu	a3, 0(a0)
	addi	a0, a0, 1
	li	a4, 1
	addi	a2, a1, -1
	bne	a3, a4, .Lnoise_BB87_70
.Lnoise_BB87_72:
	mv	a2, s1
	mv	a0, a6
.Lnoise_BB87_73:
	beqz	a0, .Lnoise_BB87_76
	lbu	a3, 0(a2)
	addi	a2, a2, 1
	addi	a0, a0, -1
	bnez	a3, .Lnoise_BB87_73
	li	a0, 1
	slli	a0, a0, 32
	sd	a0, 576(sp)
	j	.Lnoise_BB87_86
.Lnoise_BB87_76:
	beqz	t2, .Lnoise_BB87_85
	mv	t4, t1
	li	t3, 0
	mv	t1, t2
	mv	a4, t0
	j	.Lnoise_BB87_79
.Lnoise_BB87_78:
	addi	a4, a4, 24
	addi	t1, t1, -1
	xori	t3, t3, 1
	beqz	t1, .Lnoise_BB87_185
.Lnoise_BB87_79:
	li	a2, 1
	bne	t3, a2, .Lnoise_BB87_78
	ld	a2, 16(a4)
	mv	a3, a4
.Lnoise_BB87_81:
	beqz	a2, .Lnoise_BB87_78
	lbu	a0, 0(a3)
	addi	a3, a3, 1
	addi	a2, a2, -1
	bnez	a0, .Lnoise_BB87_81
	li	a0, 1
	slli	a0, a0, 32
	sd	a0, 576(sp)
.Lnoise_BB87_84:
	mv	t1, t4
	j	.Lnoise_BB87_86
.Lnoise_BB87_85:
	sd	zero, 576(sp)
.Lnoise_BB87_86:
	mv	a0, a6
.Lnoise_BB87_87:
	beqz	a0, .Lnoise_BB87_90
	lbu	a3, 0(s1)
	addi	s1, s1, 1
	li	a2, 1
	addi	a0, a0, -1
	bne	a3, a2, .Lnoise_BB87_87
	slli	a2, a2, 40
	sd	a2, 552(sp)
	j	.Lnoise_BB87_100
.Lnoise_BB87_90:
	beqz	t2, .Lnoise_BB87_99
	mv	t3, t1
	li	s1, 0
	mv	t1, t2
	j	.Lnoise_BB87_93
.Lnoise_BB87_92:
	addi	t0, t0, 24
	addi	t1, t1, -1
	xori	s1, s1, 1
	beqz	t1, .Lnoise_BB87_186
.Lnoise_BB87_93:
	li	a2, 1
	bne	s1, a2, .Lnoise_BB87_92
	ld	a3, 16(t0)
	mv	a2, t0
.Lnoise_BB87_95:
	beqz	a3, .Lnoise_BB87_92
	lbu	a0, 0(a2)
	addi	a2, a2, 1
	li	a4, 1
	addi	a3, a3, -1
	bne	a0, a4, .Lnoise_BB87_95
	slli	a4, a4, 40
	sd	a4, 552(sp)
.Lnoise_BB87_98:
	mv	t1, t3
	j	.Lnoise_BB87_100
.Lnoise_BB87_99:
	sd	zero, 552(sp)
.Lnoise_BB87_100:
	mv	a0, a5
	mv	a2, a7
.Lnoise_BB87_101:
	mv	a3, a2
	beqz	a2, .Lnoise_BB87_103
	lbu	a4, 0(a0)
	addi	a0, a0, 1
	addi	a2, a3, -1
	bnez	a4, .Lnoise_BB87_101
.Lnoise_BB87_103:
	mv	a0, a7
.Lnoise_BB87_104:
	beqz	a0, .Lnoise_BB87_108
	lbu	a4, 0(a5)
	addi	a5, a5, 1
	li	a2, 1
	addi	a0, a0, -1
	bne	a4, a2, .Lnoise_BB87_104
	slli	a2, a2, 56
	sd	a2, 544(sp)
	bnez	a7, .Lnoise_BB87_109
.Lnoise_BB87_107:
	sd	zero, 584(sp)
	sd	zero, 592(sp)
	j	.Lnoise_BB87_112
.Lnoise_BB87_108:
	sd	zero, 544(sp)
	beqz	a7, .Lnoise_BB87_107
.Lnoise_BB87_109:
	lbu	a0, 1056(sp)
	li	a2, 1
	addi	a0, a0, 1
	sd	a0, 584(sp)
	bne	a7, a2, .Lnoise_BB87_111
	sd	zero, 592(sp)
	j	.Lnoise_BB87_112
.Lnoise_BB87_111:
	lbu	a0, 1057(sp)
	addi	a0, a0, 1
	zext.b	a0, a0
	slli	a0, a0, 8
	sd	a0, 592(sp)
.Lnoise_BB87_112:
	snez	a0, a3
	snez	a1, a1
	snez	a3, s0
	beqz	a6, .Lnoise_BB87_115
	lbu	a2, 1072(sp)
	li	a4, 1
	addi	a2, a2, 1
	sd	a2, 560(sp)
	bne	a6, a4, .Lnoise_BB87_116
	sd	zero, 568(sp)
	j	.Lnoise_BB87_117
.Lnoise_BB87_115:
	sd	zero, 560(sp)
	sd	zero, 568(sp)
	j	.Lnoise_BB87_117
.Lnoise_BB87_116:
	lbu	a2, 1073(sp)
	addi	a2, a2, 1
	zext.b	a2, a2
	slli	a2, a2, 8
	sd	a2, 568(sp)
.Lnoise_BB87_117:
	slli	s0, a1, 24
	slli	s1, a3, 16
	slli	a0, a0, 48
	sd	a0, 536(sp)
	sd	t2, 520(sp)
	sd	s2, 496(sp)
	beqz	t2, .Lnoise_BB87_129
	ld	a0, 1104(sp)
	sd	s1, 168(sp)
	beqz	a0, .Lnoise_BB87_130
	lbu	a1, 1088(sp)
	li	a2, 1
	addi	s9, a1, 1
	beq	a0, a2, .Lnoise_BB87_131
	lbu	a2, 1089(sp)
	li	a1, 3
	addi	s11, a2, 1
	bltu	a0, a1, .Lnoise_BB87_132
	lbu	a2, 1090(sp)
	addi	a3, a2, 1
	beq	a0, a1, .Lnoise_BB87_133
	lbu	a2, 1091(sp)
	li	a1, 5
	addi	s4, a2, 1
	bltu	a0, a1, .Lnoise_BB87_134
	lbu	a2, 1092(sp)
	addi	s6, a2, 1
	beq	a0, a1, .Lnoise_BB87_135
	lbu	a2, 1093(sp)
	li	a1, 7
	addi	s7, a2, 1
	bltu	a0, a1, .Lnoise_BB87_136
	lbu	a2, 1094(sp)
	addi	a4, a2, 1
	beq	a0, a1, .Lnoise_BB87_137
	lbu	a2, 1095(sp)
	li	a1, 9
	addi	s1, a2, 1
	bltu	a0, a1, .Lnoise_BB87_138
	lbu	a2, 1096(sp)
	addi	a6, a2, 1
	beq	a0, a1, .Lnoise_BB87_139
	lbu	a0, 1097(sp)
	addi	s8, a0, 1
	j	.Lnoise_BB87_140
.Lnoise_BB87_129:
	sd	zero, 304(sp)
	sd	zero, 312(sp)
	sd	zero, 608(sp)
	sd	zero, 624(sp)
	sd	zero, 208(sp)
	sd	zero, 288(sp)
	sd	zero, 664(sp)
	sd	zero, 688(sp)
	sd	zero, 696(sp)
	sd	zero, 296(sp)
	sd	zero, 320(sp)
	sd	zero, 328(sp)
	sd	zero, 336(sp)
	sd	zero, 344(sp)
	sd	zero, 352(sp)
	sd	zero, 360(sp)
	sd	zero, 368(sp)
	sd	zero, 376(sp)
	sd	zero, 384(sp)
	sd	zero, 392(sp)
	sd	zero, 432(sp)
	sd	zero, 440(sp)
	sd	zero, 448(sp)
	sd	zero, 456(sp)
	sd	zero, 464(sp)
	sd	zero, 472(sp)
	sd	zero, 728(sp)
	sd	zero, 480(sp)
	sd	zero, 488(sp)
	sd	zero, 504(sp)
	li	a5, 0
	li	a6, 0
	li	s9, 0
	li	s8, 0
	li	s7, 0
	li	s6, 0
	li	s4, 0
	li	a3, 0
	sd	zero, 528(sp)
	sd	zero, 184(sp)
	sd	zero, 672(sp)
	sd	zero, 512(sp)
	sd	zero, 680(sp)
	li	a7, 0
	li	t0, 0
	sd	zero, 712(sp)
	li	t4, 0
	li	t5, 0
	li	s10, 0
	li	a2, 0
	sd	zero, 424(sp)
	sd	zero, 736(sp)
	sd	zero, 416(sp)
	sd	zero, 408(sp)
	sd	zero, 400(sp)
	sd	zero, 704(sp)
	li	s2, 0
	li	s5, 0
	li	ra, 0
	sd	zero, 720(sp)
	sd	zero, 280(sp)
	sd	zero, 656(sp)
	sd	zero, 648(sp)
	sd	zero, 272(sp)
	sd	zero, 640(sp)
	sd	zero, 632(sp)
	sd	zero, 616(sp)
	li	s11, 0
	li	t3, 0
	sd	zero, 264(sp)
	sd	zero, 256(sp)
	sd	zero, 248(sp)
	sd	zero, 240(sp)
	sd	zero, 232(sp)
	sd	zero, 224(sp)
	sd	zero, 216(sp)
	sd	zero, 200(sp)
	sd	zero, 192(sp)
	sd	zero, 176(sp)
	j	.Lnoise_BB87_167
.Lnoise_BB87_130:
	li	s9, 0
.Lnoise_BB87_131:
	li	s11, 0
.Lnoise_BB87_132:
	li	a3, 0
.Lnoise_BB87_133:
	li	s4, 0
.Lnoise_BB87_134:
	li	s6, 0
.Lnoise_BB87_135:
	li	s7, 0
.Lnoise_BB87_136:
	li	a4, 0
.Lnoise_BB87_137:
	li	s1, 0
.Lnoise_BB87_138:
	li	a6, 0
.Lnoise_BB87_139:
	li	s8, 0
.Lnoise_BB87_140:
	li	a0, 1
	sd	s11, 528(sp)
	sd	s9, 184(sp)
	bne	t2, a0, .Lnoise_BB87_142
	sd	zero, 304(sp)
	sd	zero, 312(sp)
	sd	zero, 608(sp)
	sd	zero, 624(sp)
	sd	zero, 208(sp)
	sd	zero, 288(sp)
	sd	zero, 664(sp)
	sd	zero, 688(sp)
	sd	zero, 696(sp)
	sd	zero, 296(sp)
	sd	zero, 320(sp)
	sd	zero, 328(sp)
	sd	zero, 336(sp)
	sd	zero, 344(sp)
	sd	zero, 352(sp)
	sd	zero, 360(sp)
	sd	zero, 368(sp)
	sd	zero, 376(sp)
	sd	zero, 384(sp)
	sd	zero, 392(sp)
	sd	zero, 432(sp)
	sd	zero, 440(sp)
	sd	zero, 448(sp)
	sd	zero, 456(sp)
	sd	zero, 464(sp)
	sd	zero, 472(sp)
	sd	zero, 728(sp)
	sd	zero, 480(sp)
	sd	zero, 488(sp)
	sd	zero, 504(sp)
	sd	zero, 672(sp)
	sd	zero, 512(sp)
	sd	zero, 680(sp)
	li	a7, 0
	li	t0, 0
	sd	zero, 712(sp)
	li	t4, 0
	li	t5, 0
	li	s10, 0
	li	a2, 0
	j	.Lnoise_BB87_164
.Lnoise_BB87_142:
	ld	a0, 1128(sp)
	beqz	a0, .Lnoise_BB87_155
	lbu	a1, 1112(sp)
	li	a2, 1
	addi	t3, a1, 1
	beq	a0, a2, .Lnoise_BB87_156
	lbu	a2, 1113(sp)
	li	a1, 3
	addi	a5, a2, 1
	bltu	a0, a1, .Lnoise_BB87_157
	lbu	a2, 1114(sp)
	addi	s2, a2, 1
	bne	a0, a1, .Lnoise_BB87_187
	li	a7, 0
	j	.Lnoise_BB87_194
.Lnoise_BB87_147:
	lbu	a0, 1841(sp)
	li	a1, 88
	beq	a0, a1, .Lnoise_BB87_183
	li	a1, 78
	beq	a0, a1, .Lnoise_BB87_179
	li	a1, 75
	bne	a0, a1, .Lnoise_BB87_5
	li	a1, 13
	j	.Lnoise_BB87_23
.Lnoise_BB87_151:
	lbu	a0, 1841(sp)
	beq	a0, a1, .Lnoise_BB87_184
	li	a1, 78
	beq	a0, a1, .Lnoise_BB87_180
	li	a1, 75
	bne	a0, a1, .Lnoise_BB87_5
	li	a1, 10
	j	.Lnoise_BB87_23
.Lnoise_BB87_155:
	li	t3, 0
.Lnoise_BB87_156:
	li	a5, 0
.Lnoise_BB87_157:
	li	a1, 0
	li	a7, 0
	li	t0, 0
	sd	zero, 712(sp)
	li	t4, 0
	li	t5, 0
	li	s10, 0
.Lnoise_BB87_158:
	li	a2, 0
.Lnoise_BB87_159:
	li	a0, 3
	sd	a1, 680(sp)
	sd	t3, 672(sp)
	sd	a5, 512(sp)
	bltu	t2, a0, .Lnoise_BB87_163
	ld	a0, 1152(sp)
	sd	a7, 160(sp)
	beqz	a0, .Lnoise_BB87_168
	mv	s5, a2
	lbu	a1, 1136(sp)
	li	a2, 1
	addi	s2, a1, 1
	bne	a0, a2, .Lnoise_BB87_169
	li	a7, 0
	sd	zero, 480(sp)
	li	a1, 0
	sd	zero, 472(sp)
	sd	zero, 464(sp)
	sd	zero, 456(sp)
	sd	zero, 448(sp)
	sd	zero, 440(sp)
	sd	zero, 432(sp)
	mv	a2, s5
	mv	a5, s2
	j	.Lnoise_BB87_204
.Lnoise_BB87_163:
	sd	zero, 304(sp)
	sd	zero, 312(sp)
	sd	zero, 608(sp)
	sd	zero, 624(sp)
	sd	zero, 208(sp)
	sd	zero, 288(sp)
	sd	zero, 664(sp)
	sd	zero, 688(sp)
	sd	zero, 696(sp)
	sd	zero, 296(sp)
	sd	zero, 320(sp)
	sd	zero, 328(sp)
	sd	zero, 336(sp)
	sd	zero, 344(sp)
	sd	zero, 352(sp)
	sd	zero, 360(sp)
	sd	zero, 368(sp)
	sd	zero, 376(sp)
	sd	zero, 384(sp)
	sd	zero, 392(sp)
	sd	zero, 432(sp)
	sd	zero, 440(sp)
	sd	zero, 448(sp)
	sd	zero, 456(sp)
	sd	zero, 464(sp)
	sd	zero, 472(sp)
	sd	zero, 728(sp)
	sd	zero, 480(sp)
	sd	zero, 488(sp)
	sd	zero, 504(sp)
.Lnoise_BB87_164:
	sd	zero, 424(sp)
	sd	zero, 736(sp)
	sd	zero, 416(sp)
	sd	zero, 408(sp)
	sd	zero, 400(sp)
	sd	zero, 704(sp)
	li	s2, 0
	li	s5, 0
	li	t2, 0
	li	ra, 0
	sd	zero, 720(sp)
	sd	zero, 280(sp)
	sd	zero, 656(sp)
	sd	zero, 648(sp)
	sd	zero, 272(sp)
	sd	zero, 640(sp)
	sd	zero, 632(sp)
	sd	zero, 616(sp)
	mv	a5, s8
	mv	s8, a4
	li	s11, 0
	mv	s9, s1
	li	t3, 0
	sd	zero, 264(sp)
	sd	zero, 256(sp)
	sd	zero, 248(sp)
	sd	zero, 240(sp)
	sd	zero, 232(sp)
	sd	zero, 224(sp)
.Lnoise_BB87_165:
	sd	zero, 216(sp)
	sd	zero, 200(sp)
	sd	zero, 192(sp)
	sd	zero, 176(sp)
.Lnoise_BB87_166:
	ld	s1, 168(sp)
.Lnoise_BB87_167:
	li	a0, 0
	ld	a1, 600(sp)
	or	a4, a1, t1
	or	a4, a4, s1
	ld	a1, 576(sp)
	or	a1, a1, s0
	ld	s0, 552(sp)
	ld	s1, 536(sp)
	or	s0, s0, s1
	or	a1, a1, a4
	ld	a4, 544(sp)
	or	a4, a4, s0
	or	t1, a1, a4
	ld	a1, 528(sp)
	sb	a1, 16(s3)
	sb	a3, 17(s3)
	sb	s4, 18(s3)
	sb	s6, 19(s3)
	sb	s7, 20(s3)
	sb	s8, 21(s3)
	sb	s9, 22(s3)
	sb	a6, 23(s3)
	sb	a5, 24(s3)
	ld	a1, 672(sp)
	sb	a1, 25(s3)
	ld	a1, 512(sp)
	sb	a1, 26(s3)
	ld	a1, 680(sp)
	sb	a1, 27(s3)
	sb	a7, 28(s3)
	sb	t0, 29(s3)
	ld	a1, 712(sp)
	sb	a1, 30(s3)
	sb	t4, 31(s3)
	sb	t5, 32(s3)
	sb	s10, 33(s3)
	sb	a2, 34(s3)
	ld	a1, 504(sp)
	sb	a1, 35(s3)
	ld	a1, 488(sp)
	sb	a1, 36(s3)
	ld	a1, 480(sp)
	sb	a1, 37(s3)
	ld	a1, 728(sp)
	sb	a1, 38(s3)
	ld	a1, 472(sp)
	sb	a1, 39(s3)
	ld	a1, 464(sp)
	sb	a1, 40(s3)
	ld	a1, 456(sp)
	sb	a1, 41(s3)
	ld	a1, 448(sp)
	sb	a1, 42(s3)
	ld	a1, 440(sp)
	sb	a1, 43(s3)
	ld	a1, 432(sp)
	sb	a1, 44(s3)
	ld	a1, 424(sp)
	sb	a1, 45(s3)
	ld	a1, 736(sp)
	sb	a1, 46(s3)
	ld	a1, 416(sp)
	sb	a1, 47(s3)
	ld	a1, 408(sp)
	sb	a1, 48(s3)
	ld	a1, 400(sp)
	sb	a1, 49(s3)
	ld	a1, 704(sp)
	sb	a1, 50(s3)
	sb	s2, 51(s3)
	sb	s5, 52(s3)
	sb	t2, 53(s3)
	sb	ra, 54(s3)
	ld	a1, 392(sp)
	sb	a1, 55(s3)
	ld	a1, 384(sp)
	sb	a1, 56(s3)
	ld	a1, 376(sp)
	sb	a1, 57(s3)
	ld	a1, 368(sp)
	sb	a1, 58(s3)
	ld	a1, 360(sp)
	sb	a1, 59(s3)
	ld	a1, 352(sp)
	sb	a1, 60(s3)
	ld	a1, 344(sp)
	sb	a1, 61(s3)
	ld	a1, 336(sp)
	sb	a1, 62(s3)
	ld	a1, 328(sp)
	sb	a1, 63(s3)
	ld	a1, 320(sp)
	sb	a1, 64(s3)
	ld	a1, 720(sp)
	sb	a1, 65(s3)
	ld	a1, 280(sp)
	sb	a1, 66(s3)
	ld	a1, 656(sp)
	sb	a1, 67(s3)
	ld	a1, 648(sp)
	sb	a1, 68(s3)
	ld	a1, 272(sp)
	sb	a1, 69(s3)
	ld	a1, 640(sp)
	sb	a1, 70(s3)
	ld	a1, 632(sp)
	sb	a1, 71(s3)
	ld	a1, 616(sp)
	sb	a1, 72(s3)
	sb	s11, 73(s3)
	sb	t3, 74(s3)
	ld	a1, 296(sp)
	sb	a1, 75(s3)
	ld	a1, 696(sp)
	sb	a1, 76(s3)
	ld	a1, 688(sp)
	sb	a1, 77(s3)
	ld	a1, 664(sp)
	sb	a1, 78(s3)
	ld	a1, 288(sp)
	sb	a1, 79(s3)
	ld	a6, 520(sp)
	addi	a4, a6, -1
	ld	a3, 568(sp)
	ld	s0, 560(sp)
	or	s0, s0, a3
	ld	s1, 592(sp)
	ld	a1, 584(sp)
	or	s4, s1, a1
	srli	a3, a3, 8
	srli	s1, s1, 8
	ld	a1, 208(sp)
	sb	a1, 80(s3)
	ld	a1, 624(sp)
	sb	a1, 81(s3)
	ld	a1, 608(sp)
	sb	a1, 82(s3)
	ld	a1, 312(sp)
	sb	a1, 83(s3)
	ld	a1, 304(sp)
	sb	a1, 84(s3)
	ld	a1, 264(sp)
	sb	a1, 85(s3)
	ld	a1, 256(sp)
	sb	a1, 86(s3)
	ld	a1, 248(sp)
	sb	a1, 87(s3)
	ld	a1, 240(sp)
	sb	a1, 88(s3)
	ld	a1, 232(sp)
	sb	a1, 89(s3)
	ld	a1, 224(sp)
	sb	a1, 90(s3)
	ld	a1, 216(sp)
	sb	a1, 91(s3)
	ld	a1, 200(sp)
	sb	a1, 92(s3)
	ld	a1, 192(sp)
	sb	a1, 93(s3)
	ld	a1, 176(sp)
	sb	a1, 94(s3)
	seqz	a2, a4
	sb	s1, 12(s3)
	sb	s0, 13(s3)
	sb	a3, 14(s3)
	ld	a1, 184(sp)
	sb	a1, 15(s3)
	sb	a6, 0(s3)
	sb	a2, 1(s3)
	sb	t6, 2(s3)
	sb	t1, 3(s3)
	srli	a2, t1, 56
	srli	a3, t1, 48
	srli	a4, t1, 40
	srli	a5, t1, 32
	srli	s1, t1, 24
	srli	s0, t1, 16
	srli	a1, t1, 8
	sb	a1, 4(s3)
	sb	s0, 5(s3)
	sb	s1, 6(s3)
	sb	a5, 7(s3)
	sb	a4, 8(s3)
	sb	a3, 9(s3)
	sb	a2, 10(s3)
	sb	s4, 11(s3)
	ld	a1, 496(sp)
	sb	a6, 11(a1)
	j	.Lnoise_BB87_6
.Lnoise_BB87_168:
	li	a5, 0
	li	a7, 0
	sd	zero, 480(sp)
	li	a1, 0
	sd	zero, 472(sp)
	sd	zero, 464(sp)
	sd	zero, 456(sp)
	sd	zero, 448(sp)
	sd	zero, 440(sp)
	sd	zero, 432(sp)
	j	.Lnoise_BB87_204
.Lnoise_BB87_169:
	lbu	a2, 1137(sp)
	li	a1, 3
	addi	t3, a2, 1
	bltu	a0, a1, .Lnoise_BB87_198
	lbu	a2, 1138(sp)
	addi	a2, a2, 1
	sd	a2, 480(sp)
	beq	a0, a1, .Lnoise_BB87_199
	lbu	a2, 1139(sp)
	li	a1, 5
	addi	a2, a2, 1
	sd	a2, 728(sp)
	bltu	a0, a1, .Lnoise_BB87_200
	lbu	a2, 1140(sp)
	addi	a2, a2, 1
	sd	a2, 472(sp)
	beq	a0, a1, .Lnoise_BB87_201
	lbu	a2, 1141(sp)
	li	a1, 7
	addi	a2, a2, 1
	sd	a2, 464(sp)
	bltu	a0, a1, .Lnoise_BB87_202
	sd	s10, 48(sp)
	mv	s10, t2
	lbu	a2, 1142(sp)
	addi	a2, a2, 1
	sd	a2, 456(sp)
	bne	a0, a1, .Lnoise_BB87_284
	sd	zero, 448(sp)
	sd	zero, 440(sp)
	sd	zero, 432(sp)
	j	.Lnoise_BB87_320
.Lnoise_BB87_176:
	sd	zero, 600(sp)
	j	.Lnoise_BB87_64
.Lnoise_BB87_177:
	li	a1, 6
	j	.Lnoise_BB87_23
.Lnoise_BB87_178:
	li	a1, 3
	j	.Lnoise_BB87_23
.Lnoise_BB87_179:
	li	a1, 12
	j	.Lnoise_BB87_23
.Lnoise_BB87_180:
	li	a1, 9
	j	.Lnoise_BB87_23
.Lnoise_BB87_181:
	li	a1, 8
	j	.Lnoise_BB87_23
.Lnoise_BB87_182:
	li	a1, 5
	j	.Lnoise_BB87_23
.Lnoise_BB87_183:
	li	a1, 14
	j	.Lnoise_BB87_23
.Lnoise_BB87_184:
	li	a1, 11
	j	.Lnoise_BB87_23
.Lnoise_BB87_185:
	sd	zero, 576(sp)
	j	.Lnoise_BB87_84
.Lnoise_BB87_186:
	sd	zero, 552(sp)
	j	.Lnoise_BB87_98
.Lnoise_BB87_187:
	lbu	a2, 1115(sp)
	li	a1, 5
	addi	a7, a2, 1
	bltu	a0, a1, .Lnoise_BB87_194
	lbu	a2, 1116(sp)
	addi	t0, a2, 1
	beq	a0, a1, .Lnoise_BB87_195
	lbu	a2, 1117(sp)
	li	t5, 7
	addi	a1, a2, 1
	sd	a1, 712(sp)
	bltu	a0, t5, .Lnoise_BB87_196
	lbu	a2, 1118(sp)
	addi	t4, a2, 1
	beq	a0, t5, .Lnoise_BB87_197
	mv	s10, t2
	lbu	a2, 1119(sp)
	li	a1, 9
	addi	t5, a2, 1
	bltu	a0, a1, .Lnoise_BB87_287
	sd	a7, 160(sp)
	sd	s2, 680(sp)
	mv	s2, a5
	sd	t3, 672(sp)
	mv	ra, s1
	mv	t3, a4
	lbu	a2, 1120(sp)
	addi	a2, a2, 1
	bne	a0, a1, .Lnoise_BB87_300
	mv	a4, t3
	mv	s1, ra
	ld	t3, 672(sp)
	mv	a5, s2
	ld	a1, 680(sp)
	ld	a7, 160(sp)
	mv	t2, s10
	mv	s10, a2
	j	.Lnoise_BB87_158
.Lnoise_BB87_194:
	li	t0, 0
.Lnoise_BB87_195:
	sd	zero, 712(sp)
.Lnoise_BB87_196:
	li	t4, 0
.Lnoise_BB87_197:
	li	t5, 0
	li	s10, 0
	li	a2, 0
	mv	a1, s2
	j	.Lnoise_BB87_159
.Lnoise_BB87_198:
	sd	zero, 480(sp)
.Lnoise_BB87_199:
	li	a1, 0
	sd	zero, 472(sp)
	sd	zero, 464(sp)
	sd	zero, 456(sp)
	sd	zero, 448(sp)
	sd	zero, 440(sp)
	sd	zero, 432(sp)
	mv	a2, s5
	mv	a5, s2
	mv	a7, t3
	j	.Lnoise_BB87_204
.Lnoise_BB87_200:
	sd	zero, 472(sp)
.Lnoise_BB87_201:
	sd	zero, 464(sp)
.Lnoise_BB87_202:
	sd	zero, 456(sp)
	sd	zero, 448(sp)
	sd	zero, 440(sp)
	sd	zero, 432(sp)
.Lnoise_BB87_203:
	mv	a2, s5
	mv	a5, s2
	mv	a7, t3
	ld	a1, 728(sp)
.Lnoise_BB87_204:
	li	a0, 3
	sd	a5, 504(sp)
	sd	a7, 488(sp)
	sd	a1, 728(sp)
	bne	t2, a0, .Lnoise_BB87_206
	sd	zero, 304(sp)
	sd	zero, 312(sp)
	sd	zero, 608(sp)
	sd	zero, 624(sp)
	sd	zero, 208(sp)
	sd	zero, 288(sp)
	sd	zero, 664(sp)
	sd	zero, 688(sp)
	sd	zero, 696(sp)
	sd	zero, 296(sp)
	sd	zero, 320(sp)
	sd	zero, 328(sp)
	sd	zero, 336(sp)
	sd	zero, 344(sp)
	sd	zero, 352(sp)
	sd	zero, 360(sp)
	sd	zero, 368(sp)
	sd	zero, 376(sp)
	sd	zero, 384(sp)
	sd	zero, 392(sp)
	sd	zero, 424(sp)
	sd	zero, 736(sp)
	sd	zero, 416(sp)
	sd	zero, 408(sp)
	sd	zero, 400(sp)
	sd	zero, 704(sp)
	li	s2, 0
	li	s5, 0
	li	t2, 0
	li	ra, 0
	sd	zero, 720(sp)
	sd	zero, 280(sp)
	sd	zero, 656(sp)
	sd	zero, 648(sp)
	sd	zero, 272(sp)
	sd	zero, 640(sp)
	sd	zero, 632(sp)
	sd	zero, 616(sp)
	mv	a5, s8
	mv	s8, a4
	li	s11, 0
	mv	s9, s1
	li	t3, 0
	sd	zero, 264(sp)
	sd	zero, 256(sp)
	sd	zero, 248(sp)
	sd	zero, 240(sp)
	sd	zero, 232(sp)
	sd	zero, 224(sp)
	ld	a7, 160(sp)
	j	.Lnoise_BB87_165
.Lnoise_BB87_206:
	ld	a0, 1176(sp)
	sd	a2, 120(sp)
	beqz	a0, .Lnoise_BB87_210
	lbu	a1, 1160(sp)
	li	a2, 1
	addi	s2, a1, 1
	bne	a0, a2, .Lnoise_BB87_214
	sd	zero, 416(sp)
	sd	zero, 408(sp)
	sd	zero, 400(sp)
	sd	zero, 152(sp)
	sd	zero, 144(sp)
	sd	zero, 136(sp)
	sd	zero, 128(sp)
	ld	a2, 120(sp)
	mv	s5, s2
	li	a0, 5
	sd	s5, 424(sp)
	sd	zero, 736(sp)
	sd	zero, 704(sp)
	bgeu	t2, a0, .Lnoise_BB87_211
.Lnoise_BB87_209:
	sd	zero, 304(sp)
	sd	zero, 312(sp)
	sd	zero, 608(sp)
	sd	zero, 624(sp)
	sd	zero, 208(sp)
	sd	zero, 288(sp)
	sd	zero, 664(sp)
	sd	zero, 688(sp)
	sd	zero, 696(sp)
	sd	zero, 296(sp)
	sd	zero, 320(sp)
	sd	zero, 328(sp)
	sd	zero, 336(sp)
	sd	zero, 344(sp)
	sd	zero, 352(sp)
	sd	zero, 360(sp)
	sd	zero, 368(sp)
	sd	zero, 376(sp)
	sd	zero, 384(sp)
	sd	zero, 392(sp)
	j	.Lnoise_BB87_233
.Lnoise_BB87_210:
	sd	zero, 416(sp)
	sd	zero, 408(sp)
	sd	zero, 400(sp)
	sd	zero, 152(sp)
	sd	zero, 144(sp)
	sd	zero, 136(sp)
	sd	zero, 128(sp)
	li	a0, 5
	sd	zero, 424(sp)
	sd	zero, 736(sp)
	sd	zero, 704(sp)
	bltu	t2, a0, .Lnoise_BB87_209
.Lnoise_BB87_211:
	ld	a0, 1200(sp)
	beqz	a0, .Lnoise_BB87_221
	lbu	a1, 1184(sp)
	li	a2, 1
	addi	a1, a1, 1
	sd	a1, 392(sp)
	bne	a0, a2, .Lnoise_BB87_222
	sd	zero, 384(sp)
	j	.Lnoise_BB87_227
.Lnoise_BB87_214:
	lbu	a2, 1161(sp)
	li	a1, 3
	addi	a2, a2, 1
	sd	a2, 736(sp)
	bltu	a0, a1, .Lnoise_BB87_239
	lbu	a2, 1162(sp)
	addi	a2, a2, 1
	sd	a2, 416(sp)
	beq	a0, a1, .Lnoise_BB87_240
	lbu	a2, 1163(sp)
	li	a1, 5
	addi	a2, a2, 1
	sd	a2, 408(sp)
	bltu	a0, a1, .Lnoise_BB87_241
	lbu	a2, 1164(sp)
	addi	a2, a2, 1
	sd	a2, 400(sp)
	beq	a0, a1, .Lnoise_BB87_242
	sd	s10, 48(sp)
	mv	s10, t2
	lbu	a2, 1165(sp)
	li	a1, 7
	addi	a2, a2, 1
	sd	a2, 704(sp)
	bltu	a0, a1, .Lnoise_BB87_288
	sd	s8, 720(sp)
	sd	a6, 40(sp)
	mv	a6, s1
	mv	s8, a4
	lbu	a2, 1166(sp)
	addi	a2, a2, 1
	sd	a2, 152(sp)
	bne	a0, a1, .Lnoise_BB87_301
	sd	zero, 144(sp)
	sd	zero, 136(sp)
	sd	zero, 128(sp)
	j	.Lnoise_BB87_325
.Lnoise_BB87_221:
	sd	zero, 392(sp)
	sd	zero, 384(sp)
	sd	zero, 376(sp)
	sd	zero, 368(sp)
	sd	zero, 360(sp)
	sd	zero, 352(sp)
	sd	zero, 344(sp)
	sd	zero, 336(sp)
	sd	zero, 328(sp)
	sd	zero, 320(sp)
	j	.Lnoise_BB87_231
.Lnoise_BB87_222:
	lbu	a2, 1185(sp)
	li	a1, 3
	addi	a2, a2, 1
	sd	a2, 384(sp)
	bltu	a0, a1, .Lnoise_BB87_227
	lbu	a2, 1186(sp)
	addi	a2, a2, 1
	sd	a2, 376(sp)
	beq	a0, a1, .Lnoise_BB87_228
	lbu	a2, 1187(sp)
	li	a1, 5
	addi	a2, a2, 1
	sd	a2, 368(sp)
	bltu	a0, a1, .Lnoise_BB87_229
	sd	s10, 48(sp)
	mv	s10, t2
	lbu	a2, 1188(sp)
	addi	a2, a2, 1
	sd	a2, 360(sp)
	bne	a0, a1, .Lnoise_BB87_289
	sd	zero, 352(sp)
	sd	zero, 344(sp)
	sd	zero, 336(sp)
	sd	zero, 328(sp)
	sd	zero, 320(sp)
	j	.Lnoise_BB87_313
.Lnoise_BB87_227:
	sd	zero, 376(sp)
.Lnoise_BB87_228:
	sd	zero, 368(sp)
.Lnoise_BB87_229:
	sd	zero, 360(sp)
	sd	zero, 352(sp)
	sd	zero, 344(sp)
	sd	zero, 336(sp)
	sd	zero, 328(sp)
	sd	zero, 320(sp)
.Lnoise_BB87_230:
	ld	a2, 120(sp)
.Lnoise_BB87_231:
	li	a0, 5
	bne	t2, a0, .Lnoise_BB87_234
	sd	zero, 304(sp)
	sd	zero, 312(sp)
	sd	zero, 608(sp)
	sd	zero, 624(sp)
	sd	zero, 208(sp)
	sd	zero, 288(sp)
	sd	zero, 664(sp)
	sd	zero, 688(sp)
	sd	zero, 696(sp)
	sd	zero, 296(sp)
.Lnoise_BB87_233:
	sd	zero, 720(sp)
	sd	zero, 280(sp)
	sd	zero, 656(sp)
	sd	zero, 648(sp)
	sd	zero, 272(sp)
	sd	zero, 640(sp)
	sd	zero, 632(sp)
	sd	zero, 616(sp)
	mv	a5, s8
	mv	s8, a4
	li	s11, 0
	mv	s9, s1
	li	t3, 0
	sd	zero, 264(sp)
	sd	zero, 256(sp)
	sd	zero, 248(sp)
	sd	zero, 240(sp)
	sd	zero, 232(sp)
	sd	zero, 224(sp)
	ld	a7, 160(sp)
	sd	zero, 216(sp)
	sd	zero, 200(sp)
	sd	zero, 192(sp)
	sd	zero, 176(sp)
	ld	s2, 152(sp)
	ld	s5, 144(sp)
	ld	t2, 136(sp)
	ld	ra, 128(sp)
	j	.Lnoise_BB87_166
.Lnoise_BB87_234:
	sd	s0, 104(sp)
	ld	a0, 1224(sp)
	sd	a3, 96(sp)
	sd	s4, 88(sp)
	sd	s6, 80(sp)
	sd	s7, 72(sp)
	sd	a4, 112(sp)
	sd	s1, 64(sp)
	beqz	a0, .Lnoise_BB87_243
	lbu	s0, 1208(sp)
	li	a1, 1
	addi	s0, s0, 1
	beq	a0, a1, .Lnoise_BB87_244
	sd	s0, 720(sp)
	mv	s0, a2
	lbu	a2, 1209(sp)
	li	a1, 3
	addi	a2, a2, 1
	sd	a2, 280(sp)
	bltu	a0, a1, .Lnoise_BB87_261
	ld	a5, 168(sp)
	lbu	s1, 1210(sp)
	addi	s6, s1, 1
	bne	a0, a1, .Lnoise_BB87_263
	li	a4, 0
	li	s4, 0
	li	s9, 0
	li	a3, 0
	sd	zero, 56(sp)
	li	t3, 0
	mv	s1, a5
	li	a5, 0
	mv	a2, s0
	ld	s0, 720(sp)
	j	.Lnoise_BB87_245
.Lnoise_BB87_239:
	sd	zero, 416(sp)
.Lnoise_BB87_240:
	sd	zero, 408(sp)
.Lnoise_BB87_241:
	sd	zero, 400(sp)
.Lnoise_BB87_242:
	sd	zero, 152(sp)
	sd	zero, 144(sp)
	sd	zero, 136(sp)
	sd	zero, 128(sp)
	ld	a2, 120(sp)
	mv	s5, s2
	ld	s2, 736(sp)
	li	a0, 5
	sd	s5, 424(sp)
	sd	s2, 736(sp)
	sd	zero, 704(sp)
	bltu	t2, a0, .Lnoise_BB87_209
	j	.Lnoise_BB87_211
.Lnoise_BB87_243:
	li	s0, 0
.Lnoise_BB87_244:
	sd	zero, 280(sp)
	li	s6, 0
	li	a4, 0
	li	s4, 0
	li	s9, 0
	li	a3, 0
	li	a5, 0
	sd	zero, 56(sp)
	li	t3, 0
	ld	s1, 168(sp)
.Lnoise_BB87_245:
	li	a0, 7
	ld	a7, 160(sp)
	sd	s0, 720(sp)
	sd	s6, 656(sp)
	sd	a4, 648(sp)
	sd	s4, 272(sp)
	sd	s9, 640(sp)
	sd	a3, 632(sp)
	sd	a5, 616(sp)
	bltu	t2, a0, .Lnoise_BB87_251
	ld	a0, 1248(sp)
	beqz	a0, .Lnoise_BB87_252
	lbu	a1, 1232(sp)
	li	a3, 1
	addi	a1, a1, 1
	sd	a1, 296(sp)
	beq	a0, a3, .Lnoise_BB87_253
	lbu	a4, 1233(sp)
	li	a1, 3
	addi	a3, a4, 1
	bltu	a0, a1, .Lnoise_BB87_254
	sd	t3, 32(sp)
	sd	a3, 696(sp)
	mv	a3, a2
	lbu	a4, 1234(sp)
	addi	a4, a4, 1
	sd	a4, 688(sp)
	bne	a0, a1, .Lnoise_BB87_294
	li	s6, 0
	sd	zero, 288(sp)
	li	a4, 0
	li	a1, 0
	li	s4, 0
	li	s9, 0
	li	a5, 0
	mv	a2, a3
	ld	a3, 696(sp)
	ld	s0, 688(sp)
	j	.Lnoise_BB87_317
.Lnoise_BB87_251:
	sd	zero, 304(sp)
	sd	zero, 312(sp)
	sd	zero, 608(sp)
	sd	zero, 624(sp)
	sd	zero, 208(sp)
	sd	zero, 288(sp)
	sd	zero, 664(sp)
	sd	zero, 688(sp)
	sd	zero, 696(sp)
	sd	zero, 296(sp)
	j	.Lnoise_BB87_256
.Lnoise_BB87_252:
	sd	zero, 296(sp)
.Lnoise_BB87_253:
	li	a3, 0
.Lnoise_BB87_254:
	li	s0, 0
	li	s6, 0
	sd	zero, 288(sp)
	li	a4, 0
	li	a1, 0
	li	s4, 0
	li	s9, 0
	li	a5, 0
.Lnoise_BB87_255:
	li	a0, 7
	sd	s4, 608(sp)
	sd	s9, 312(sp)
	sd	a5, 304(sp)
	sd	a3, 696(sp)
	sd	s0, 688(sp)
	sd	s6, 664(sp)
	sd	a1, 624(sp)
	sd	a4, 208(sp)
	bne	t2, a0, .Lnoise_BB87_258
.Lnoise_BB87_256:
	sd	zero, 264(sp)
	sd	zero, 256(sp)
	sd	zero, 248(sp)
	sd	zero, 240(sp)
	sd	zero, 232(sp)
	sd	zero, 224(sp)
	sd	zero, 216(sp)
	sd	zero, 200(sp)
	sd	zero, 192(sp)
	sd	zero, 176(sp)
	ld	s0, 104(sp)
	ld	a3, 96(sp)
	ld	s4, 88(sp)
	ld	s6, 80(sp)
	ld	s7, 72(sp)
	mv	a5, s8
	ld	s8, 112(sp)
	ld	s9, 64(sp)
.Lnoise_BB87_257:
	ld	s2, 152(sp)
	ld	s5, 144(sp)
	ld	t2, 136(sp)
	ld	ra, 128(sp)
	ld	s11, 56(sp)
	j	.Lnoise_BB87_167
.Lnoise_BB87_258:
	sd	s10, 48(sp)
	ld	a0, 1272(sp)
	beqz	a0, .Lnoise_BB87_262
	sd	t3, 32(sp)
	mv	a2, t5
	sd	t4, 24(sp)
	ld	t2, 712(sp)
	sd	t0, 16(sp)
	mv	t5, s8
	sd	a6, 40(sp)
	lbu	s10, 1256(sp)
	li	a5, 1
	addi	s10, s10, 1
	sd	s10, 264(sp)
	sd	t2, 712(sp)
	bne	a0, a5, .Lnoise_BB87_266
	sd	zero, 256(sp)
	j	.Lnoise_BB87_275
.Lnoise_BB87_261:
	li	s6, 0
	li	a4, 0
	li	s4, 0
	li	s9, 0
	li	a3, 0
	li	a5, 0
	sd	zero, 56(sp)
	li	t3, 0
	mv	a2, s0
	ld	s1, 168(sp)
	ld	s0, 720(sp)
	j	.Lnoise_BB87_245
.Lnoise_BB87_262:
	sd	zero, 264(sp)
	sd	zero, 256(sp)
	sd	zero, 248(sp)
	sd	zero, 240(sp)
	sd	zero, 232(sp)
	sd	zero, 224(sp)
	sd	zero, 216(sp)
	sd	zero, 200(sp)
	sd	zero, 192(sp)
	sd	zero, 176(sp)
	ld	s0, 104(sp)
	ld	a3, 96(sp)
	ld	s4, 88(sp)
	ld	s6, 80(sp)
	ld	s7, 72(sp)
	mv	a5, s8
	ld	s8, 112(sp)
	ld	s9, 64(sp)
	ld	s10, 48(sp)
	j	.Lnoise_BB87_257
.Lnoise_BB87_263:
	lbu	a2, 1211(sp)
	li	a1, 5
	addi	a4, a2, 1
	bltu	a0, a1, .Lnoise_BB87_299
	sd	a4, 648(sp)
	sd	s6, 656(sp)
	sd	s10, 48(sp)
	sd	t4, 24(sp)
	mv	s11, s8
	lbu	s4, 1212(sp)
	addi	s4, s4, 1
	bne	a0, a1, .Lnoise_BB87_304
	li	s9, 0
	sd	zero, 56(sp)
	li	t3, 0
	mv	s1, a5
	li	a5, 0
	mv	s8, s11
	ld	t4, 24(sp)
	ld	s10, 48(sp)
	mv	a2, s0
	li	a3, 0
	ld	s0, 720(sp)
	ld	s6, 656(sp)
	ld	a4, 648(sp)
	j	.Lnoise_BB87_245
.Lnoise_BB87_266:
	lbu	s11, 1257(sp)
	li	a5, 3
	addi	s11, s11, 1
	sd	s11, 256(sp)
	bltu	a0, a5, .Lnoise_BB87_275
	lbu	ra, 1258(sp)
	addi	ra, ra, 1
	sd	ra, 248(sp)
	beq	a0, a5, .Lnoise_BB87_276
	lbu	t3, 1259(sp)
	li	a5, 5
	addi	t3, t3, 1
	sd	t3, 240(sp)
	bltu	a0, a5, .Lnoise_BB87_277
	lbu	t4, 1260(sp)
	addi	t4, t4, 1
	sd	t4, 232(sp)
	beq	a0, a5, .Lnoise_BB87_278
	lbu	s0, 1261(sp)
	li	a5, 7
	addi	s0, s0, 1
	sd	s0, 224(sp)
	bltu	a0, a5, .Lnoise_BB87_279
	lbu	a6, 1262(sp)
	addi	a6, a6, 1
	sd	a6, 216(sp)
	beq	a0, a5, .Lnoise_BB87_280
	lbu	s0, 1263(sp)
	li	a5, 9
	addi	s0, s0, 1
	sd	s0, 200(sp)
	bltu	a0, a5, .Lnoise_BB87_281
	lbu	t0, 1264(sp)
	addi	t0, t0, 1
	sd	t0, 192(sp)
	beq	a0, a5, .Lnoise_BB87_282
	lbu	a5, 1265(sp)
	addi	a5, a5, 1
	sd	a5, 176(sp)
	j	.Lnoise_BB87_283
.Lnoise_BB87_275:
	sd	zero, 248(sp)
.Lnoise_BB87_276:
	sd	zero, 240(sp)
.Lnoise_BB87_277:
	sd	zero, 232(sp)
.Lnoise_BB87_278:
	sd	zero, 224(sp)
.Lnoise_BB87_279:
	sd	zero, 216(sp)
.Lnoise_BB87_280:
	sd	zero, 200(sp)
.Lnoise_BB87_281:
	sd	zero, 192(sp)
.Lnoise_BB87_282:
	sd	zero, 176(sp)
.Lnoise_BB87_283:
	ld	s0, 104(sp)
	ld	a3, 96(sp)
	ld	s4, 88(sp)
	ld	s6, 80(sp)
	ld	s7, 72(sp)
	ld	s8, 112(sp)
	ld	s9, 64(sp)
	ld	a6, 40(sp)
	mv	a5, t5
	ld	t0, 16(sp)
	ld	t4, 24(sp)
	mv	t5, a2
	ld	s10, 48(sp)
	ld	a2, 120(sp)
	ld	s2, 152(sp)
	ld	s5, 144(sp)
	ld	t2, 136(sp)
	ld	ra, 128(sp)
	ld	s11, 56(sp)
	ld	t3, 32(sp)
	j	.Lnoise_BB87_167
.Lnoise_BB87_284:
	sd	a6, 40(sp)
	mv	ra, s1
	mv	s1, a4
	lbu	a2, 1143(sp)
	li	a1, 9
	addi	a2, a2, 1
	sd	a2, 448(sp)
	bltu	a0, a1, .Lnoise_BB87_307
	lbu	a2, 1144(sp)
	addi	a2, a2, 1
	sd	a2, 440(sp)
	bne	a0, a1, .Lnoise_BB87_318
	sd	zero, 432(sp)
	j	.Lnoise_BB87_319
.Lnoise_BB87_287:
	li	a2, 0
	mv	t2, s10
	li	s10, 0
	mv	a1, s2
	j	.Lnoise_BB87_159
.Lnoise_BB87_288:
	sd	zero, 152(sp)
	sd	zero, 144(sp)
	sd	zero, 136(sp)
	sd	zero, 128(sp)
	j	.Lnoise_BB87_326
.Lnoise_BB87_289:
	sd	a6, 40(sp)
	mv	a6, s1
	sd	a4, 112(sp)
	lbu	a2, 1189(sp)
	li	a1, 7
	addi	a2, a2, 1
	sd	a2, 352(sp)
	bltu	a0, a1, .Lnoise_BB87_308
	lbu	a2, 1190(sp)
	addi	a2, a2, 1
	sd	a2, 344(sp)
	beq	a0, a1, .Lnoise_BB87_309
	lbu	a2, 1191(sp)
	li	a1, 9
	addi	a2, a2, 1
	sd	a2, 336(sp)
	bltu	a0, a1, .Lnoise_BB87_310
	lbu	a2, 1192(sp)
	addi	a2, a2, 1
	sd	a2, 328(sp)
	beq	a0, a1, .Lnoise_BB87_311
	lbu	a0, 1193(sp)
	addi	a0, a0, 1
	sd	a0, 320(sp)
	j	.Lnoise_BB87_312
.Lnoise_BB87_294:
	sd	s10, 48(sp)
	lbu	a4, 1235(sp)
	li	a5, 5
	addi	a4, a4, 1
	sd	a4, 664(sp)
	bltu	a0, a5, .Lnoise_BB87_314
	lbu	a1, 1236(sp)
	addi	a1, a1, 1
	sd	a1, 288(sp)
	beq	a0, a5, .Lnoise_BB87_315
	lbu	a5, 1237(sp)
	li	a4, 7
	addi	a1, a5, 1
	bltu	a0, a4, .Lnoise_BB87_323
	lbu	a5, 1238(sp)
	addi	a5, a5, 1
	sd	a5, 624(sp)
	bne	a0, a4, .Lnoise_BB87_330
	li	s4, 0
	li	s9, 0
	li	a5, 0
	ld	s10, 48(sp)
	mv	a2, a3
	mv	a4, a1
	ld	a1, 624(sp)
	j	.Lnoise_BB87_316
.Lnoise_BB87_299:
	li	s4, 0
	li	s9, 0
	sd	zero, 56(sp)
	li	t3, 0
	mv	s1, a5
	li	a5, 0
	mv	a2, s0
	li	a3, 0
	ld	s0, 720(sp)
	j	.Lnoise_BB87_245
.Lnoise_BB87_300:
	lbu	a0, 1121(sp)
	addi	a0, a0, 1
	mv	a4, t3
	mv	s1, ra
	ld	t3, 672(sp)
	mv	a5, s2
	ld	a1, 680(sp)
	ld	a7, 160(sp)
	mv	t2, s10
	mv	s10, a2
	mv	a2, a0
	j	.Lnoise_BB87_159
.Lnoise_BB87_301:
	lbu	a2, 1167(sp)
	li	a1, 9
	addi	a2, a2, 1
	sd	a2, 144(sp)
	bltu	a0, a1, .Lnoise_BB87_321
	lbu	a2, 1168(sp)
	addi	a2, a2, 1
	sd	a2, 136(sp)
	bne	a0, a1, .Lnoise_BB87_324
	sd	zero, 128(sp)
	j	.Lnoise_BB87_325
.Lnoise_BB87_304:
	lbu	s1, 1213(sp)
	li	a1, 7
	addi	s1, s1, 1
	sd	s1, 640(sp)
	bltu	a0, a1, .Lnoise_BB87_322
	lbu	s6, 1214(sp)
	addi	s6, s6, 1
	sd	s6, 632(sp)
	bne	a0, a1, .Lnoise_BB87_327
	sd	zero, 56(sp)
	li	t3, 0
	mv	s1, a5
	li	a5, 0
	mv	s8, s11
	ld	t4, 24(sp)
	ld	s10, 48(sp)
	mv	a2, s0
	ld	s0, 720(sp)
	ld	s6, 656(sp)
	ld	a4, 648(sp)
	ld	s9, 640(sp)
	ld	a3, 632(sp)
	j	.Lnoise_BB87_245
.Lnoise_BB87_307:
	sd	zero, 440(sp)
	sd	zero, 432(sp)
	j	.Lnoise_BB87_319
.Lnoise_BB87_308:
	sd	zero, 344(sp)
.Lnoise_BB87_309:
	sd	zero, 336(sp)
.Lnoise_BB87_310:
	sd	zero, 328(sp)
.Lnoise_BB87_311:
	sd	zero, 320(sp)
.Lnoise_BB87_312:
	ld	a4, 112(sp)
	mv	s1, a6
	ld	a6, 40(sp)
.Lnoise_BB87_313:
	mv	t2, s10
	ld	s10, 48(sp)
	j	.Lnoise_BB87_230
.Lnoise_BB87_314:
	sd	zero, 288(sp)
.Lnoise_BB87_315:
	li	a4, 0
	li	a1, 0
	li	s4, 0
	li	s9, 0
	li	a5, 0
	ld	s10, 48(sp)
	mv	a2, a3
.Lnoise_BB87_316:
	ld	a3, 696(sp)
	ld	s0, 688(sp)
	ld	s6, 664(sp)
.Lnoise_BB87_317:
	ld	t3, 32(sp)
	j	.Lnoise_BB87_255
.Lnoise_BB87_318:
	lbu	a0, 1145(sp)
	addi	a0, a0, 1
	sd	a0, 432(sp)
.Lnoise_BB87_319:
	mv	a4, s1
	mv	s1, ra
	ld	a6, 40(sp)
.Lnoise_BB87_320:
	mv	t2, s10
	ld	s10, 48(sp)
	j	.Lnoise_BB87_203
.Lnoise_BB87_321:
	sd	zero, 136(sp)
	sd	zero, 128(sp)
	j	.Lnoise_BB87_325
.Lnoise_BB87_322:
	sd	zero, 56(sp)
	li	t3, 0
	mv	s1, a5
	li	a5, 0
	mv	s8, s11
	ld	t4, 24(sp)
	ld	s10, 48(sp)
	mv	a2, s0
	li	a3, 0
	ld	s0, 720(sp)
	ld	s6, 656(sp)
	ld	a4, 648(sp)
	ld	s9, 640(sp)
	j	.Lnoise_BB87_245
.Lnoise_BB87_323:
	li	s4, 0
	li	s9, 0
	ld	s10, 48(sp)
	mv	a2, a3
	mv	a4, a1
	li	a1, 0
	li	a5, 0
	j	.Lnoise_BB87_316
.Lnoise_BB87_324:
	lbu	a0, 1169(sp)
	addi	a0, a0, 1
	sd	a0, 128(sp)
.Lnoise_BB87_325:
	mv	a4, s8
	mv	s1, a6
	ld	a6, 40(sp)
	ld	s8, 720(sp)
.Lnoise_BB87_326:
	mv	t2, s10
	ld	s10, 48(sp)
	ld	a2, 120(sp)
	mv	s5, s2
	ld	s2, 736(sp)
	ld	ra, 704(sp)
	li	a0, 5
	sd	s5, 424(sp)
	sd	s2, 736(sp)
	sd	ra, 704(sp)
	bgeu	t2, a0, .Lnoise_BB87_211
	j	.Lnoise_BB87_209
.Lnoise_BB87_327:
	lbu	a1, 1215(sp)
	li	s1, 9
	addi	a1, a1, 1
	sd	a1, 616(sp)
	bltu	a0, s1, .Lnoise_BB87_333
	lbu	s8, 1216(sp)
	addi	s8, s8, 1
	sd	s8, 56(sp)
	bne	a0, s1, .Lnoise_BB87_334
	li	t3, 0
	j	.Lnoise_BB87_335
.Lnoise_BB87_330:
	lbu	a5, 1239(sp)
	li	a4, 9
	addi	a5, a5, 1
	sd	a5, 608(sp)
	bltu	a0, a4, .Lnoise_BB87_336
	lbu	a5, 1240(sp)
	addi	s9, a5, 1
	bne	a0, a4, .Lnoise_BB87_337
	li	a5, 0
	j	.Lnoise_BB87_338
.Lnoise_BB87_333:
	sd	zero, 56(sp)
	li	t3, 0
	j	.Lnoise_BB87_335
.Lnoise_BB87_334:
	lbu	s9, 1217(sp)
	addi	t3, s9, 1
.Lnoise_BB87_335:
	mv	s1, a5
	mv	s8, s11
	ld	t4, 24(sp)
	ld	s10, 48(sp)
	mv	a2, s0
	ld	s0, 720(sp)
	ld	s6, 656(sp)
	ld	a4, 648(sp)
	ld	s9, 640(sp)
	ld	a3, 632(sp)
	ld	a5, 616(sp)
	j	.Lnoise_BB87_245
.Lnoise_BB87_336:
	li	s9, 0
	li	a5, 0
	j	.Lnoise_BB87_338
.Lnoise_BB87_337:
	lbu	a0, 1241(sp)
	addi	a5, a0, 1
.Lnoise_BB87_338:
	ld	s10, 48(sp)
	mv	a2, a3
	mv	a4, a1
	ld	a1, 624(sp)
	ld	s4, 608(sp)
	j	.Lnoise_BB87_316
.Lnoise_func_end87:
	.size	noise_pattern, .Lnoise_func_end87-noise_pattern
	.cfi_endproc

	.section	.text.noise_layout,"ax",@progbits
	.globl	noise_layout
	.p2align	1
	.type	noise_layout,@function
noise_layout:
	.cfi_startproc
	addi	sp, sp, -1248
	.cfi_def_cfa_offset 1248
	sd	ra, 1240(sp)
	sd	s0, 1232(sp)
	sd	s1, 1224(sp)
	sd	s2, 1216(sp)
	sd	s3, 1208(sp)
	sd	s4, 1200(sp)
	sd	s5, 1192(sp)
	sd	s6, 1184(sp)
	sd	s7, 1176(sp)
	.cfi_offset ra, -8
	.cfi_offset s0, -16
	.cfi_offset s1, -24
	.cfi_offset s2, -32
	.cfi_offset s3, -40
	.cfi_offset s4, -48
	.cfi_offset s5, -56
	.cfi_offset s6, -64
	.cfi_offset s7, -72
	.cfi_remember_state
	mv	s5, a4
	mv	s3, a3
	mv	s6, a2
	mv	s0, a1
	seqz	a1, a0
	slli	a1, a1, 12
	add	s1, a0, a1
	sh	zero, 148(sp)
	sb	zero, 150(sp)
	addi	a0, sp, 16
	li	a2, 132
	li	a1, 0
	call	memset
	addi	a0, sp, 152
	mv	a1, s1
	mv	a2, s0
	call	noise_noise_c_patterns_pattern_of
	lbu	a0, 152(sp)
	beqz	a0, .Lnoise_BB88_3
	lw	a0, 156(sp)
.Lnoise_BB88_2:
	ld	ra, 1240(sp)
	ld	s0, 1232(sp)
	ld	s1, 1224(sp)
	ld	s2, 1216(sp)
	ld	s3, 1208(sp)
	ld	s4, 1200(sp)
	ld	s5, 1192(sp)
	ld	s6, 1184(sp)
	ld	s7, 1176(sp)
	.cfi_restore ra
	.cfi_restore s0
	.cfi_restore s1
	.cfi_restore s2
	.cfi_restore s3
	.cfi_restore s4
	.cfi_restore s5
	.cfi_restore s6
	.cfi_restore s7
	addi	sp, sp, 1248
	.cfi_def_cfa_offset 0
	ret
.Lnoise_BB88_3:
	.cfi_restore_state
	addi	s4, sp, 160
	addi	a0, sp, 432
	li	a2, 272
	mv	a1, s4
	call	memcpy
	zext.b	s0, s6
	li	a0, 29
	beqz	s0, .Lnoise_BB88_2
	ld	a1, 696(sp)
	bltu	a1, s0, .Lnoise_BB88_2
	mv	a0, s4
	mv	a1, s6
	call	noise_noise_names_valid_ValidPattern_overhead
	srli	a1, s3, 16
	bnez	a1, .Lnoise_BB88_10
	slli	a0, a0, 48
	srli	a0, a0, 48
	add	a0, a0, s3
	srli	a1, a0, 16
	li	a0, 29
	bnez	a1, .Lnoise_BB88_2
	sh	zero, 980(sp)
	sb	zero, 982(sp)
	sd	zero, 968(sp)
	sw	zero, 976(sp)
	sd	zero, 952(sp)
	sw	zero, 960(sp)
	sd	zero, 936(sp)
	sw	zero, 944(sp)
	sd	zero, 920(sp)
	sw	zero, 928(sp)
	sd	zero, 904(sp)
	sw	zero, 912(sp)
	sd	zero, 888(sp)
	sw	zero, 896(sp)
	sd	zero, 872(sp)
	sw	zero, 880(sp)
	sd	zero, 856(sp)
	sw	zero, 864(sp)
	sd	zero, 840(sp)
	sw	zero, 848(sp)
	addi	a0, sp, 704
	li	a2, 132
	call	memset
	slli	a0, s0, 3
	slli	s0, s0, 4
	add	a0, a0, s0
	addi	s1, sp, 432
	add	s1, s1, a0
	ld	s7, 64(s1)
	mv	a0, s4
	mv	a1, s6
	call	noise_noise_names_valid_ValidPattern_overhead
	mv	s2, a0
	sd	zero, 1160(sp)
	sw	zero, 1168(sp)
	beqz	s7, .Lnoise_BB88_11
	lbu	a0, 48(s1)
	sd	zero, 984(sp)
	sw	zero, 992(sp)
	addi	a4, a0, 1
	addi	a1, a0, -1
	seqz	a5, a1
	sltiu	a6, a0, 2
	slli	a6, a6, 5
	addi	a0, sp, 984
	mv	a1, s4
	mv	a2, s6
	li	a3, 0
	call	noise_noise_c_message_layout_piece
	li	a0, 1
	sd	zero, 1160(sp)
	sw	zero, 1168(sp)
	bne	s7, a0, .Lnoise_BB88_23
	addi	a0, sp, 1160
	li	a3, 1
	li	a4, 8
	li	a5, 1
	mv	a1, s4
	mv	a2, s6
	mv	a6, s3
	call	noise_noise_c_message_layout_piece
	j	.Lnoise_BB88_12
.Lnoise_BB88_10:
	li	a0, 29
	j	.Lnoise_BB88_2
.Lnoise_BB88_11:
	addi	a0, sp, 1160
	li	a4, 8
	li	a5, 1
	mv	a1, s4
	mv	a2, s6
	li	a3, 0
	mv	a6, s3
	call	noise_noise_c_message_layout_piece
	ld	a0, 1160(sp)
	lw	a1, 1168(sp)
	sd	a0, 984(sp)
	sw	a1, 992(sp)
	sd	zero, 1160(sp)
	sw	zero, 1168(sp)
.Lnoise_BB88_12:
	ld	a0, 1160(sp)
	lw	a1, 1168(sp)
	sd	a0, 968(sp)
	sw	a1, 976(sp)
	sd	zero, 1160(sp)
	sw	zero, 1168(sp)
.Lnoise_BB88_13:
	ld	a0, 1160(sp)
	lw	a1, 1168(sp)
	sd	a0, 952(sp)
	sw	a1, 960(sp)
	sd	zero, 1160(sp)
	sw	zero, 1168(sp)
.Lnoise_BB88_14:
	ld	a0, 1160(sp)
	lw	a1, 1168(sp)
	sd	a0, 936(sp)
	sw	a1, 944(sp)
	sd	zero, 1160(sp)
	sw	zero, 1168(sp)
.Lnoise_BB88_15:
	ld	a0, 1160(sp)
	lw	a1, 1168(sp)
	sd	a0, 920(sp)
	sw	a1, 928(sp)
	sd	zero, 1160(sp)
	sw	zero, 1168(sp)
.Lnoise_BB88_16:
	ld	a0, 1160(sp)
	lw	a1, 1168(sp)
	sd	a0, 904(sp)
	sw	a1, 912(sp)
	sd	zero, 1160(sp)
	sw	zero, 1168(sp)
.Lnoise_BB88_17:
	ld	a0, 1160(sp)
	lw	a1, 1168(sp)
	sd	a0, 888(sp)
	sw	a1, 896(sp)
	sd	zero, 1160(sp)
	sw	zero, 1168(sp)
.Lnoise_BB88_18:
	ld	a0, 1160(sp)
	lw	a1, 1168(sp)
	sd	a0, 872(sp)
	sw	a1, 880(sp)
	sd	zero, 1160(sp)
	sw	zero, 1168(sp)
.Lnoise_BB88_19:
	ld	a0, 1160(sp)
	lw	a1, 1168(sp)
	sd	a0, 856(sp)
	sw	a1, 864(sp)
	sd	zero, 1160(sp)
	sw	zero, 1168(sp)
.Lnoise_BB88_20:
	ld	a0, 1160(sp)
	lw	a1, 1168(sp)
	sd	a0, 840(sp)
	sw	a1, 848(sp)
	sd	zero, 1144(sp)
	sw	zero, 1152(sp)
.Lnoise_BB88_21:
	ld	a0, 1144(sp)
	lw	a1, 1152(sp)
	sd	a0, 1160(sp)
	sw	a1, 1168(sp)
.Lnoise_BB88_22:
	slli	s2, s2, 48
	ld	t0, 984(sp)
	lw	t3, 992(sp)
	lw	a2, 968(sp)
	lw	a3, 972(sp)
	lw	a6, 976(sp)
	ld	t2, 952(sp)
	lw	s1, 960(sp)
	lw	s0, 936(sp)
	lw	t1, 940(sp)
	lw	a7, 944(sp)
	ld	a0, 920(sp)
	lw	a4, 928(sp)
	srli	a5, s2, 48
	add	s3, s3, a5
	lw	t4, 904(sp)
	lw	t5, 908(sp)
	lw	a5, 912(sp)
	sd	t0, 704(sp)
	sw	t3, 712(sp)
	sw	a2, 716(sp)
	sw	a3, 720(sp)
	ld	a2, 888(sp)
	lw	t0, 896(sp)
	sw	a6, 724(sp)
	sd	t2, 728(sp)
	sw	s1, 736(sp)
	sw	s0, 740(sp)
	lw	s1, 872(sp)
	lw	s0, 876(sp)
	lw	a1, 880(sp)
	sw	t1, 744(sp)
	sw	a7, 748(sp)
	sd	a0, 752(sp)
	sw	a4, 760(sp)
	ld	a0, 856(sp)
	lw	a4, 864(sp)
	sw	t4, 764(sp)
	sw	t5, 768(sp)
	sw	a5, 772(sp)
	sd	a2, 776(sp)
	lw	a2, 840(sp)
	lw	a5, 844(sp)
	lw	a3, 848(sp)
	sw	t0, 784(sp)
	sw	s1, 788(sp)
	sw	s0, 792(sp)
	sw	a1, 796(sp)
	ld	a1, 1160(sp)
	lw	s1, 1168(sp)
	sd	a0, 800(sp)
	sw	a4, 808(sp)
	sw	a2, 812(sp)
	sw	a5, 816(sp)
	lh	a0, 980(sp)
	lbu	a2, 982(sp)
	sw	a3, 820(sp)
	sd	a1, 824(sp)
	sw	s1, 832(sp)
	addi	s7, s7, 1
	sh	a0, 148(sp)
	sb	a2, 150(sp)
	addi	a0, sp, 16
	addi	a1, sp, 704
	li	a2, 132
	call	memcpy
	srli	a0, s3, 24
	srli	a1, s3, 16
	srli	a2, s3, 8
	sb	s3, 4(s5)
	sb	a2, 5(s5)
	sb	a1, 6(s5)
	sb	a0, 7(s5)
	lbu	a0, 148(sp)
	lbu	a1, 149(sp)
	lbu	a2, 150(sp)
	sb	s7, 0(s5)
	sb	a0, 1(s5)
	sb	a1, 2(s5)
	sb	a2, 3(s5)
	addi	a0, s5, 8
	addi	a1, sp, 16
	li	a2, 132
	call	memcpy
	li	a0, 0
	j	.Lnoise_BB88_2
.Lnoise_BB88_23:
	lbu	a0, 49(s1)
	sd	zero, 1000(sp)
	sw	zero, 1008(sp)
	addi	a4, a0, 1
	addi	a1, a0, -1
	seqz	a5, a1
	sltiu	a6, a0, 2
	slli	a6, a6, 5
	addi	a0, sp, 1000
	li	a3, 1
	mv	a1, s4
	mv	a2, s6
	call	noise_noise_c_message_layout_piece
	ld	a0, 1000(sp)
	lw	a1, 1008(sp)
	sd	a0, 968(sp)
	sw	a1, 976(sp)
	li	a0, 2
	sd	zero, 1160(sp)
	sw	zero, 1168(sp)
	bgeu	a0, s7, .Lnoise_BB88_26
	lbu	a0, 50(s1)
	sd	zero, 1016(sp)
	sw	zero, 1024(sp)
	addi	a4, a0, 1
	addi	a1, a0, -1
	seqz	a5, a1
	sltiu	a6, a0, 2
	slli	a6, a6, 5
	addi	a0, sp, 1016
	li	a3, 2
	mv	a1, s4
	mv	a2, s6
	call	noise_noise_c_message_layout_piece
	ld	a0, 1016(sp)
	lw	a1, 1024(sp)
	sd	a0, 952(sp)
	sw	a1, 960(sp)
	li	a0, 3
	sd	zero, 1160(sp)
	sw	zero, 1168(sp)
	bne	s7, a0, .Lnoise_BB88_27
	addi	a0, sp, 1160
	li	a3, 3
	li	a4, 8
	li	a5, 1
	mv	a1, s4
	mv	a2, s6
	mv	a6, s3
	call	noise_noise_c_message_layout_piece
	j	.Lnoise_BB88_14
.Lnoise_BB88_26:
	addi	a0, sp, 1160
	li	a3, 2
	li	a4, 8
	li	a5, 1
	mv	a1, s4
	mv	a2, s6
	mv	a6, s3
	call	noise_noise_c_message_layout_piece
	j	.Lnoise_BB88_13
.Lnoise_BB88_27:
	lbu	a0, 51(s1)
	sd	zero, 1032(sp)
	sw	zero, 1040(sp)
	addi	a4, a0, 1
	addi	a1, a0, -1
	seqz	a5, a1
	sltiu	a6, a0, 2
	slli	a6, a6, 5
	addi	a0, sp, 1032
	li	a3, 3
	mv	a1, s4
	mv	a2, s6
	call	noise_noise_c_message_layout_piece
	ld	a0, 1032(sp)
	lw	a1, 1040(sp)
	sd	a0, 936(sp)
	sw	a1, 944(sp)
	li	a0, 4
	sd	zero, 1160(sp)
	sw	zero, 1168(sp)
	bgeu	a0, s7, .Lnoise_BB88_30
	lbu	a0, 52(s1)
	sd	zero, 1048(sp)
	sw	zero, 1056(sp)
	addi	a4, a0, 1
	addi	a1, a0, -1
	seqz	a5, a1
	sltiu	a6, a0, 2
	slli	a6, a6, 5
	addi	a0, sp, 1048
	li	a3, 4
	mv	a1, s4
	mv	a2, s6
	call	noise_noise_c_message_layout_piece
	ld	a0, 1048(sp)
	lw	a1, 1056(sp)
	sd	a0, 920(sp)
	sw	a1, 928(sp)
	li	a0, 5
	sd	zero, 1160(sp)
	sw	zero, 1168(sp)
	bne	s7, a0, .Lnoise_BB88_31
	addi	a0, sp, 1160
	li	a3, 5
	li	a4, 8
	li	a5, 1
	mv	a1, s4
	mv	a2, s6
	mv	a6, s3
	call	noise_noise_c_message_layout_piece
	j	.Lnoise_BB88_16
.Lnoise_BB88_30:
	addi	a0, sp, 1160
	li	a3, 4
	li	a4, 8
	li	a5, 1
	mv	a1, s4
	mv	a2, s6
	mv	a6, s3
	call	noise_noise_c_message_layout_piece
	j	.Lnoise_BB88_15
.Lnoise_BB88_31:
	lbu	a0, 53(s1)
	sd	zero, 1064(sp)
	sw	zero, 1072(sp)
	addi	a4, a0, 1
	addi	a1, a0, -1
	seqz	a5, a1
	sltiu	a6, a0, 2
	slli	a6, a6, 5
	addi	a0, sp, 1064
	li	a3, 5
	mv	a1, s4
	mv	a2, s6
	call	noise_noise_c_message_layout_piece
	ld	a0, 1064(sp)
	lw	a1, 1072(sp)
	sd	a0, 904(sp)
	sw	a1, 912(sp)
	li	a0, 6
	sd	zero, 1160(sp)
	sw	zero, 1168(sp)
	bgeu	a0, s7, .Lnoise_BB88_34
	lbu	a0, 54(s1)
	sd	zero, 1080(sp)
	sw	zero, 1088(sp)
	addi	a4, a0, 1
	addi	a1, a0, -1
	seqz	a5, a1
	sltiu	a6, a0, 2
	slli	a6, a6, 5
	addi	a0, sp, 1080
	li	a3, 6
	mv	a1, s4
	mv	a2, s6
	call	noise_noise_c_message_layout_piece
	ld	a0, 1080(sp)
	lw	a1, 1088(sp)
	sd	a0, 888(sp)
	sw	a1, 896(sp)
	li	a0, 7
	sd	zero, 1160(sp)
	sw	zero, 1168(sp)
	bne	s7, a0, .Lnoise_BB88_35
	addi	a0, sp, 1160
	li	a3, 7
	li	a4, 8
	li	a5, 1
	mv	a1, s4
	mv	a2, s6
	mv	a6, s3
	call	noise_noise_c_message_layout_piece
	j	.Lnoise_BB88_18
.Lnoise_BB88_34:
	addi	a0, sp, 1160
	li	a3, 6
	li	a4, 8
	li	a5, 1
	mv	a1, s4
	mv	a2, s6
	mv	a6, s3
	call	noise_noise_c_message_layout_piece
	j	.Lnoise_BB88_17
.Lnoise_BB88_35:
	lbu	a0, 55(s1)
	sd	zero, 1096(sp)
	sw	zero, 1104(sp)
	addi	a4, a0, 1
	addi	a1, a0, -1
	seqz	a5, a1
	sltiu	a6, a0, 2
	slli	a6, a6, 5
	addi	a0, sp, 1096
	li	a3, 7
	mv	a1, s4
	mv	a2, s6
	call	noise_noise_c_message_layout_piece
	ld	a0, 1096(sp)
	lw	a1, 1104(sp)
	sd	a0, 872(sp)
	sw	a1, 880(sp)
	li	a0, 8
	sd	zero, 1160(sp)
	sw	zero, 1168(sp)
	bgeu	a0, s7, .Lnoise_BB88_38
	lbu	a0, 56(s1)
	sd	zero, 1112(sp)
	sw	zero, 1120(sp)
	addi	a4, a0, 1
	addi	a1, a0, -1
	seqz	a5, a1
	sltiu	a6, a0, 2
	slli	a6, a6, 5
	addi	a0, sp, 1112
	li	a3, 8
	mv	a1, s4
	mv	a2, s6
	call	noise_noise_c_message_layout_piece
	ld	a0, 1112(sp)
	lw	a1, 1120(sp)
	sd	a0, 856(sp)
	sw	a1, 864(sp)
	li	a0, 9
	sd	zero, 1160(sp)
	sw	zero, 1168(sp)
	bne	s7, a0, .Lnoise_BB88_39
	addi	a0, sp, 1160
	li	a3, 9
	li	a4, 8
	li	a5, 1
	mv	a1, s4
	mv	a2, s6
	mv	a6, s3
	call	noise_noise_c_message_layout_piece
	j	.Lnoise_BB88_20
.Lnoise_BB88_38:
	addi	a0, sp, 1160
	li	a3, 8
	li	a4, 8
	li	a5, 1
	mv	a1, s4
	mv	a2, s6
	mv	a6, s3
	call	noise_noise_c_message_layout_piece
	j	.Lnoise_BB88_19
.Lnoise_BB88_39:
	lbu	a0, 57(s1)
	sd	zero, 1128(sp)
	sw	zero, 1136(sp)
	addi	a4, a0, 1
	addi	a1, a0, -1
	seqz	a5, a1
	sltiu	a6, a0, 2
	slli	a6, a6, 5
	addi	a0, sp, 1128
	li	a3, 9
	mv	a1, s4
	mv	a2, s6
	call	noise_noise_c_message_layout_piece
	ld	a0, 1128(sp)
	lw	a1, 1136(sp)
	sd	a0, 840(sp)
	sw	a1, 848(sp)
	li	a0, 10
	sd	zero, 1144(sp)
	sw	zero, 1152(sp)
	bne	s7, a0, .Lnoise_BB88_41
	addi	a0, sp, 1144
	li	a3, 10
	li	a4, 8
	li	a5, 1
	mv	a1, s4
	mv	a2, s6
	mv	a6, s3
	call	noise_noise_c_message_layout_piece
	j	.Lnoise_BB88_21
.Lnoise_BB88_41:
	lbu	a0, 58(s1)
	sd	zero, 1160(sp)
	sw	zero, 1168(sp)
	addi	a4, a0, 1
	addi	a1, a0, -1
	seqz	a5, a1
	sltiu	a6, a0, 2
	slli	a6, a6, 5
	addi	a0, sp, 1160
	li	a3, 10
	mv	a1, s4
	mv	a2, s6
	call	noise_noise_c_message_layout_piece
	j	.Lnoise_BB88_22
.Lnoise_func_end88:
	.size	noise_layout, .Lnoise_func_end88-noise_layout
	.cfi_endproc

	.section	.text.noise_finish,"ax",@progbits
	.globl	noise_finish
	.p2align	1
	.type	noise_finish,@function
noise_finish:
	.cfi_startproc
	addi	sp, sp, -480
	.cfi_def_cfa_offset 480
	sd	ra, 472(sp)
	sd	s0, 464(sp)
	sd	s1, 456(sp)
	sd	s2, 448(sp)
	sd	s3, 440(sp)
	sd	s4, 432(sp)
	sd	s5, 424(sp)
	sd	s6, 416(sp)
	sd	s7, 408(sp)
	sd	s8, 400(sp)
	sd	s9, 392(sp)
	sd	s10, 384(sp)
	sd	s11, 376(sp)
	.cfi_offset ra, -8
	.cfi_offset s0, -16
	.cfi_offset s1, -24
	.cfi_offset s2, -32
	.cfi_offset s3, -40
	.cfi_offset s4, -48
	.cfi_offset s5, -56
	.cfi_offset s6, -64
	.cfi_offset s7, -72
	.cfi_offset s8, -80
	.cfi_offset s9, -88
	.cfi_offset s10, -96
	.cfi_offset s11, -104
	.cfi_remember_state
	mv	s5, a3
	mv	s1, a2
	mv	s0, a1
	mv	a1, a0
	addi	a0, sp, 136
	call	noise_noise_c_split_finished
	lbu	a0, 136(sp)
	beqz	a0, .Lnoise_BB89_2
	lw	a0, 140(sp)
	j	.Lnoise_BB89_7
.Lnoise_BB89_2:
	sd	s1, 88(sp)
	sd	s0, 96(sp)
	lbu	a1, 144(sp)
	lbu	a0, 216(sp)
	sd	a0, 104(sp)
	ld	a0, 256(sp)
	sd	a0, 120(sp)
	lbu	a0, 264(sp)
	sd	a0, 112(sp)
	ld	a0, 304(sp)
	sd	a0, 128(sp)
	addi	a4, sp, 217
	addi	a3, sp, 265
	sd	a1, 80(sp)
	beqz	a1, .Lnoise_BB89_4
	lbu	t2, 24(a3)
	lbu	s3, 25(a3)
	lbu	s8, 26(a3)
	lbu	a5, 27(a3)
	lbu	a6, 28(a3)
	lbu	t3, 29(a3)
	lbu	t4, 30(a3)
	lbu	t5, 31(a3)
	lbu	t6, 16(a3)
	lbu	a1, 17(a3)
	lbu	s0, 18(a3)
	lbu	a2, 19(a3)
	lbu	a7, 20(a3)
	lbu	s2, 21(a3)
	lbu	a0, 22(a3)
	lbu	s6, 23(a3)
	lbu	s7, 8(a3)
	lbu	s9, 9(a3)
	lbu	t0, 10(a3)
	lbu	t1, 11(a3)
	slli	s3, s3, 8
	slli	s8, s8, 16
	slli	a5, a5, 24
	or	s1, s3, t2
	sd	s1, 72(sp)
	or	a5, a5, s8
	sd	a5, 64(sp)
	lbu	s3, 12(a3)
	lbu	s8, 13(a3)
	lbu	s10, 14(a3)
	lbu	s11, 15(a3)
	slli	t3, t3, 8
	slli	t4, t4, 16
	slli	t5, t5, 24
	slli	a1, a1, 8
	slli	s0, s0, 16
	slli	a2, a2, 24
	or	a5, t3, a6
	sd	a5, 56(sp)
	or	a5, t5, t4
	sd	a5, 48(sp)
	or	a1, a1, t6
	sd	a1, 40(sp)
	or	a2, a2, s0
	sd	a2, 32(sp)
	lbu	a1, 0(a3)
	lbu	a2, 1(a3)
	lbu	a6, 2(a3)
	lbu	ra, 3(a3)
	slli	s2, s2, 8
	slli	a0, a0, 16
	slli	s6, s6, 24
	slli	s9, s9, 8
	or	a5, s2, a7
	sd	a5, 24(sp)
	or	s6, s6, a0
	or	a0, s9, s7
	sd	a0, 16(sp)
	lbu	a7, 4(a3)
	lbu	s2, 5(a3)
	lbu	a5, 6(a3)
	lbu	a3, 7(a3)
	slli	t0, t0, 16
	slli	t1, t1, 24
	slli	s8, s8, 8
	slli	s10, s10, 16
	slli	s11, s11, 24
	slli	a2, a2, 8
	or	s7, t1, t0
	or	s8, s8, s3
	or	s11, s11, s10
	or	a1, a1, a2
	sd	a1, 8(sp)
	lbu	a1, 0(a4)
	lbu	a2, 1(a4)
	lbu	a0, 2(a4)
	lbu	s0, 3(a4)
	slli	a6, a6, 16
	slli	ra, ra, 24
	slli	s2, s2, 8
	slli	a5, a5, 16
	slli	a3, a3, 24
	slli	a2, a2, 8
	or	s3, ra, a6
	or	ra, s2, a7
	or	t6, a3, a5
	or	s10, a2, a1
	lbu	a6, 4(a4)
	lbu	a2, 5(a4)
	lbu	a1, 6(a4)
	lbu	a5, 7(a4)
	slli	a0, a0, 16
	slli	s0, s0, 24
	slli	a3, a2, 8
	slli	a1, a1, 16
	slli	a5, a5, 24
	or	t5, s0, a0
	or	s9, a3, a6
	or	t3, a5, a1
	lbu	a0, 9(a4)
	lbu	a1, 8(a4)
	lbu	a5, 10(a4)
	lbu	s0, 11(a4)
	slli	a0, a0, 8
	or	t2, a0, a1
	slli	a5, a5, 16
	slli	s0, s0, 24
	or	s2, s0, a5
	lbu	a0, 13(a4)
	lbu	a1, 12(a4)
	lbu	a5, 14(a4)
	lbu	s4, 15(a4)
	slli	a0, a0, 8
	or	t4, a0, a1
	slli	a5, a5, 16
	slli	s4, s4, 24
	or	s4, s4, a5
	lbu	a0, 17(a4)
	lbu	a1, 16(a4)
	lbu	a5, 18(a4)
	mv	t1, s5
	lbu	s5, 19(a4)
	slli	a0, a0, 8
	or	t0, a0, a1
	slli	a5, a5, 16
	slli	a0, s5, 24
	or	s5, a0, a5
	lbu	a5, 21(a4)
	lbu	a1, 20(a4)
	lbu	s1, 22(a4)
	lbu	a0, 23(a4)
	slli	a5, a5, 8
	or	a7, a5, a1
	slli	s1, s1, 16
	slli	a0, a0, 24
	or	a6, a0, s1
	lbu	a5, 25(a4)
	lbu	s1, 24(a4)
	lbu	a1, 26(a4)
	lbu	a0, 27(a4)
	slli	a5, a5, 8
	or	a5, a5, s1
	slli	a1, a1, 16
	slli	a0, a0, 24
	or	a3, a0, a1
	lbu	a1, 29(a4)
	lbu	s1, 28(a4)
	lbu	a0, 30(a4)
	lbu	a4, 31(a4)
	slli	a1, a1, 8
	or	a2, a1, s1
	slli	a0, a0, 16
	slli	a4, a4, 24
	or	a0, a0, a4
	ld	a1, 72(sp)
	ld	a4, 64(sp)
	or	a4, a4, a1
	ld	a1, 56(sp)
	ld	s1, 48(sp)
	or	s1, s1, a1
	ld	a1, 40(sp)
	ld	s0, 32(sp)
	or	a1, a1, s0
	ld	s0, 24(sp)
	or	s6, s6, s0
	ld	s0, 16(sp)
	or	s7, s7, s0
	or	s8, s11, s8
	ld	s0, 8(sp)
	or	s3, s3, s0
	or	t6, t6, ra
	or	t5, t5, s10
	or	t3, t3, s9
	or	t2, s2, t2
	or	s0, s4, t4
	or	t0, s5, t0
	mv	s5, t1
	or	a6, a6, a7
	or	a3, a3, a5
	or	a0, a0, a2
	slli	s1, s1, 32
	or	a7, s1, a4
	slli	s6, s6, 32
	or	a1, s6, a1
	slli	s8, s8, 32
	or	a2, s8, s7
	slli	t6, t6, 32
	or	a5, t6, s3
	slli	t3, t3, 32
	or	s1, t3, t5
	slli	s0, s0, 32
	or	s0, s0, t2
	slli	a6, a6, 32
	or	a4, a6, t0
	slli	a0, a0, 32
	or	a0, a0, a3
	sd	a5, 344(sp)
	sd	a2, 352(sp)
	sd	a1, 360(sp)
	sd	a7, 368(sp)
	sd	s1, 312(sp)
	sd	s0, 320(sp)
	sd	a4, 328(sp)
	sd	a0, 336(sp)
	ld	a0, 112(sp)
	ld	s0, 128(sp)
	ld	s1, 104(sp)
	ld	a1, 120(sp)
	sd	a1, 128(sp)
	li	a4, 1
	beq	a0, a4, .Lnoise_BB89_5
	j	.Lnoise_BB89_8
.Lnoise_BB89_4:
	lbu	a6, 24(a4)
	lbu	t0, 25(a4)
	lbu	t3, 26(a4)
	lbu	t4, 27(a4)
	lbu	t2, 28(a4)
	lbu	s0, 29(a4)
	lbu	a0, 30(a4)
	lbu	a2, 31(a4)
	lbu	a7, 16(a4)
	lbu	t5, 17(a4)
	lbu	t6, 18(a4)
	lbu	s7, 19(a4)
	lbu	s4, 20(a4)
	lbu	a5, 21(a4)
	lbu	t1, 22(a4)
	lbu	s6, 23(a4)
	lbu	s8, 8(a4)
	lbu	s9, 9(a4)
	lbu	s10, 10(a4)
	lbu	ra, 11(a4)
	lbu	s11, 12(a4)
	lbu	a1, 13(a4)
	lbu	s2, 14(a4)
	lbu	s3, 15(a4)
	slli	t0, t0, 8
	slli	t3, t3, 16
	slli	t4, t4, 24
	slli	s0, s0, 8
	slli	a0, a0, 16
	slli	a2, a2, 24
	or	s1, t0, a6
	sd	s1, 64(sp)
	or	s1, t4, t3
	sd	s1, 72(sp)
	or	s1, s0, t2
	or	a0, a0, a2
	sd	a0, 56(sp)
	lbu	t2, 0(a4)
	lbu	t0, 1(a4)
	lbu	s0, 2(a4)
	lbu	a6, 3(a4)
	slli	t5, t5, 8
	slli	t6, t6, 16
	slli	s7, s7, 24
	slli	a5, a5, 8
	or	a0, t5, a7
	sd	a0, 48(sp)
	or	a0, s7, t6
	sd	a0, 40(sp)
	or	a0, a5, s4
	sd	a0, 32(sp)
	lbu	a5, 4(a4)
	lbu	a2, 5(a4)
	lbu	a7, 6(a4)
	lbu	a4, 7(a4)
	slli	t1, t1, 16
	slli	s6, s6, 24
	slli	s9, s9, 8
	slli	s10, s10, 16
	slli	ra, ra, 24
	slli	a1, a1, 8
	or	a0, s6, t1
	sd	a0, 24(sp)
	or	a0, s9, s8
	sd	a0, 16(sp)
	or	a0, ra, s10
	sd	a0, 8(sp)
	or	a0, a1, s11
	sd	a0, 0(sp)
	lbu	a1, 0(a3)
	lbu	t1, 1(a3)
	lbu	a0, 2(a3)
	lbu	s10, 3(a3)
	slli	s2, s2, 16
	slli	s3, s3, 24
	slli	t0, t0, 8
	slli	s0, s0, 16
	slli	a6, a6, 24
	slli	a2, a2, 8
	or	s11, s3, s2
	or	s9, t0, t2
	or	s8, a6, s0
	or	ra, a2, a5
	lbu	s3, 4(a3)
	lbu	a5, 5(a3)
	lbu	a6, 6(a3)
	lbu	s0, 7(a3)
	slli	a7, a7, 16
	slli	a4, a4, 24
	slli	a2, t1, 8
	slli	a0, a0, 16
	slli	s10, s10, 24
	slli	a5, a5, 8
	or	s7, a4, a7
	or	s6, a2, a1
	or	s4, s10, a0
	or	s3, a5, s3
	lbu	a0, 8(a3)
	lbu	a1, 9(a3)
	lbu	a2, 10(a3)
	lbu	a4, 11(a3)
	slli	a6, a6, 16
	slli	s0, s0, 24
	slli	a1, a1, 8
	slli	a2, a2, 16
	slli	a4, a4, 24
	or	s10, s0, a6
	or	s2, a1, a0
	or	t6, a4, a2
	lbu	a0, 13(a3)
	lbu	a1, 12(a3)
	lbu	a5, 14(a3)
	lbu	s0, 15(a3)
	slli	a0, a0, 8
	or	t5, a0, a1
	slli	a5, a5, 16
	slli	a1, s0, 24
	or	t4, a1, a5
	lbu	a1, 17(a3)
	lbu	a5, 16(a3)
	lbu	s0, 18(a3)
	lbu	a0, 19(a3)
	slli	a1, a1, 8
	or	t3, a1, a5
	slli	s0, s0, 16
	slli	a0, a0, 24
	or	t2, a0, s0
	lbu	a2, 21(a3)
	lbu	s0, 20(a3)
	lbu	a1, 22(a3)
	lbu	a0, 23(a3)
	slli	a2, a2, 8
	or	t1, a2, s0
	slli	a1, a1, 16
	slli	a0, a0, 24
	or	t0, a0, a1
	lbu	a2, 25(a3)
	lbu	s0, 24(a3)
	lbu	a1, 26(a3)
	lbu	a0, 27(a3)
	slli	a2, a2, 8
	or	a7, a2, s0
	slli	a1, a1, 16
	slli	a0, a0, 24
	or	a6, a0, a1
	lbu	a1, 29(a3)
	lbu	s0, 28(a3)
	lbu	a0, 30(a3)
	lbu	a3, 31(a3)
	slli	a1, a1, 8
	or	a5, a1, s0
	slli	a0, a0, 16
	slli	a3, a3, 24
	or	a3, a3, a0
	ld	a0, 72(sp)
	ld	a2, 64(sp)
	or	a2, a2, a0
	ld	s0, 56(sp)
	or	s0, s0, s1
	ld	a0, 48(sp)
	ld	a1, 40(sp)
	or	a1, a1, a0
	ld	a0, 32(sp)
	ld	a4, 24(sp)
	or	a0, a0, a4
	ld	a4, 16(sp)
	ld	s1, 8(sp)
	or	a4, a4, s1
	ld	s1, 0(sp)
	or	s11, s11, s1
	or	s8, s8, s9
	or	s7, s7, ra
	or	s4, s4, s6
	or	s3, s10, s3
	or	t6, t6, s2
	or	t4, t4, t5
	or	t2, t2, t3
	or	t0, t0, t1
	or	a6, a6, a7
	or	a3, a3, a5
	slli	s0, s0, 32
	or	a7, s0, a2
	slli	a0, a0, 32
	or	a0, a0, a1
	slli	s11, s11, 32
	or	a1, s11, a4
	slli	s7, s7, 32
	or	a4, s7, s8
	slli	s3, s3, 32
	or	a5, s3, s4
	slli	t4, t4, 32
	or	s0, t4, t6
	slli	t0, t0, 32
	or	a2, t0, t2
	slli	a3, a3, 32
	or	a3, a3, a6
	sd	a4, 344(sp)
	sd	a1, 352(sp)
	sd	a0, 360(sp)
	sd	a7, 368(sp)
	sd	a5, 312(sp)
	sd	s0, 320(sp)
	sd	a2, 328(sp)
	sd	a3, 336(sp)
	ld	a0, 104(sp)
	ld	s0, 120(sp)
	ld	s1, 112(sp)
	li	a4, 1
	bne	a0, a4, .Lnoise_BB89_8
.Lnoise_BB89_5:
	lbu	a0, 145(sp)
	ld	a1, 80(sp)
	snez	s11, a1
	li	a2, 78
	li	a3, 111
	li	a1, 3
	addi	s11, s11, 1
	ld	s6, 88(sp)
	sb	a4, 0(s6)
	sb	a1, 1(s6)
	sb	a3, 2(s6)
	sb	a2, 3(s6)
	andi	s2, a0, 1
	sb	s11, 4(s6)
	sb	s2, 5(s6)
	addi	a0, s6, 6
	addi	a1, sp, 344
	li	a2, 32
	call	memcpy
	ld	s4, 96(sp)
	srli	a6, s4, 56
	srli	a5, s4, 48
	srli	s10, s4, 40
	srli	s3, s4, 32
	srli	s8, s4, 24
	srli	s9, s4, 16
	srli	s7, s4, 8
	srli	a0, s0, 56
	srli	a1, s0, 48
	srli	a2, s0, 40
	srli	a3, s0, 32
	srli	a4, s0, 24
	sb	a1, 54(s6)
	sb	a0, 55(s6)
	srli	a0, s0, 16
	sb	a0, 50(s6)
	sb	a4, 51(s6)
	sb	a3, 52(s6)
	sb	a2, 53(s6)
	srli	a0, s0, 8
	sb	s9, 42(s6)
	sb	s8, 43(s6)
	sb	s3, 44(s6)
	sb	s10, 45(s6)
	sb	zero, 38(s6)
	sb	zero, 39(s6)
	sb	s4, 40(s6)
	sb	s7, 41(s6)
	sd	a5, 112(sp)
	sb	a5, 46(s6)
	sd	a6, 120(sp)
	sb	a6, 47(s6)
	sb	s0, 48(s6)
	sb	a0, 49(s6)
	li	a0, 1
	bne	s1, a0, .Lnoise_BB89_8
	li	a0, 4
	sb	s11, 4(s5)
	sb	s2, 5(s5)
	li	a1, 1
	sb	a1, 0(s5)
	sb	a0, 1(s5)
	li	a0, 111
	sb	a0, 2(s5)
	li	a0, 78
	sb	a0, 3(s5)
	addi	a0, s5, 6
	addi	a1, sp, 312
	li	a2, 32
	call	memcpy
	li	a0, 0
	sb	s9, 42(s5)
	sb	s8, 43(s5)
	sb	s3, 44(s5)
	sb	s10, 45(s5)
	sb	zero, 38(s5)
	sb	zero, 39(s5)
	sb	s4, 40(s5)
	sb	s7, 41(s5)
	ld	s1, 128(sp)
	srli	a1, s1, 56
	srli	a2, s1, 48
	srli	a3, s1, 40
	srli	a4, s1, 32
	srli	a5, s1, 24
	srli	s0, s1, 16
	sb	a2, 54(s5)
	sb	a1, 55(s5)
	srli	a1, s1, 8
	sb	s0, 50(s5)
	sb	a5, 51(s5)
	sb	a4, 52(s5)
	sb	a3, 53(s5)
	ld	a2, 112(sp)
	sb	a2, 46(s5)
	ld	a2, 120(sp)
	sb	a2, 47(s5)
	sb	s1, 48(s5)
	sb	a1, 49(s5)
.Lnoise_BB89_7:
	ld	ra, 472(sp)
	ld	s0, 464(sp)
	ld	s1, 456(sp)
	ld	s2, 448(sp)
	ld	s3, 440(sp)
	ld	s4, 432(sp)
	ld	s5, 424(sp)
	ld	s6, 416(sp)
	ld	s7, 408(sp)
	ld	s8, 400(sp)
	ld	s9, 392(sp)
	ld	s10, 384(sp)
	ld	s11, 376(sp)
	.cfi_restore ra
	.cfi_restore s0
	.cfi_restore s1
	.cfi_restore s2
	.cfi_restore s3
	.cfi_restore s4
	.cfi_restore s5
	.cfi_restore s6
	.cfi_restore s7
	.cfi_restore s8
	.cfi_restore s9
	.cfi_restore s10
	.cfi_restore s11
	addi	sp, sp, 480
	.cfi_def_cfa_offset 0
	ret
.Lnoise_BB89_8:
	.cfi_restore_state
	unimp
.Lnoise_func_end89:
	.size	noise_finish, .Lnoise_func_end89-noise_finish
	.cfi_endproc

	.section	.text.noise_finish_ciphers,"ax",@progbits
	.globl	noise_finish_ciphers
	.p2align	1
	.type	noise_finish_ciphers,@function
noise_finish_ciphers:
	.cfi_startproc
	addi	sp, sp, -384
	.cfi_def_cfa_offset 384
	sd	ra, 376(sp)
	sd	s0, 368(sp)
	sd	s1, 360(sp)
	sd	s2, 352(sp)
	sd	s3, 344(sp)
	sd	s4, 336(sp)
	sd	s5, 328(sp)
	sd	s6, 320(sp)
	sd	s7, 312(sp)
	sd	s8, 304(sp)
	sd	s9, 296(sp)
	sd	s10, 288(sp)
	sd	s11, 280(sp)
	.cfi_offset ra, -8
	.cfi_offset s0, -16
	.cfi_offset s1, -24
	.cfi_offset s2, -32
	.cfi_offset s3, -40
	.cfi_offset s4, -48
	.cfi_offset s5, -56
	.cfi_offset s6, -64
	.cfi_offset s7, -72
	.cfi_offset s8, -80
	.cfi_offset s9, -88
	.cfi_offset s10, -96
	.cfi_offset s11, -104
	mv	s4, a2
	mv	s2, a1
	mv	a1, a0
	addi	a0, sp, 32
	call	noise_noise_c_split_finished
	lbu	a0, 32(sp)
	beqz	a0, .Lnoise_BB90_2
	lw	a0, 36(sp)
	j	.Lnoise_BB90_18
.Lnoise_BB90_2:
	lbu	a0, 40(sp)
	lbu	a6, 41(sp)
	lbu	t4, 112(sp)
	ld	s1, 152(sp)
	lbu	a7, 160(sp)
	ld	s8, 200(sp)
	addi	a3, sp, 113
	addi	a2, sp, 161
	li	ra, 1
	beqz	a0, .Lnoise_BB90_7
	bne	a7, ra, .Lnoise_BB90_9
	andi	a0, a6, 1
	bnez	a0, .Lnoise_BB90_9
	li	ra, 0
	lbu	a6, 24(a2)
	lbu	a7, 25(a2)
	lbu	t0, 26(a2)
	lbu	t1, 27(a2)
	lbu	s0, 28(a2)
	lbu	a1, 29(a2)
	lbu	t3, 30(a2)
	lbu	t5, 31(a2)
	lbu	t6, 16(a2)
	lbu	s3, 17(a2)
	lbu	s5, 18(a2)
	lbu	s9, 19(a2)
	lbu	a0, 20(a2)
	lbu	a4, 21(a2)
	lbu	s6, 22(a2)
	lbu	s7, 23(a2)
	slli	a7, a7, 8
	slli	a5, t0, 16
	slli	t1, t1, 24
	slli	a1, a1, 8
	or	t0, a7, a6
	or	t2, t1, a5
	or	t1, a1, s0
	lbu	s0, 8(a2)
	lbu	s10, 9(a2)
	lbu	s11, 10(a2)
	lbu	a5, 11(a2)
	slli	t3, t3, 16
	slli	t5, t5, 24
	slli	s3, s3, 8
	slli	s5, s5, 16
	slli	s9, s9, 24
	slli	a4, a4, 8
	or	a6, t5, t3
	or	t3, s3, t6
	or	t5, s9, s5
	or	a7, a4, a0
	lbu	a4, 12(a2)
	lbu	a1, 13(a2)
	lbu	t6, 14(a2)
	lbu	s9, 15(a2)
	slli	s6, s6, 16
	slli	s7, s7, 24
	slli	s10, s10, 8
	slli	s11, s11, 16
	slli	a5, a5, 24
	slli	a1, a1, 8
	or	s3, s7, s6
	or	s10, s10, s0
	or	s6, a5, s11
	or	s5, a1, a4
	lbu	a4, 0(a2)
	lbu	a1, 1(a2)
	lbu	a5, 2(a2)
	lbu	a0, 3(a2)
	slli	t6, t6, 16
	slli	s9, s9, 24
	slli	a1, a1, 8
	slli	a5, a5, 16
	slli	a0, a0, 24
	or	t6, s9, t6
	or	s7, a1, a4
	mv	s0, s1
	or	s1, a0, a5
	lbu	a4, 5(a2)
	lbu	a5, 4(a2)
	lbu	a1, 6(a2)
	lbu	a2, 7(a2)
	slli	a4, a4, 8
	or	s9, a4, a5
	slli	a1, a1, 16
	slli	a2, a2, 24
	or	a1, a1, a2
	or	a2, t2, t0
	or	a5, a6, t1
	or	t0, t5, t3
	or	a4, s3, a7
	or	a6, s6, s10
	or	a0, t6, s5
	or	a7, s1, s7
	mv	s1, s0
	or	a1, a1, s9
	slli	a5, a5, 32
	or	a2, a2, a5
	slli	a4, a4, 32
	or	a4, a4, t0
	slli	a0, a0, 32
	or	a0, a0, a6
	slli	a1, a1, 32
	or	a1, a1, a7
	sd	a1, 216(sp)
	sd	a0, 224(sp)
	sd	a4, 232(sp)
	sd	a2, 240(sp)
	mv	s3, s8
	li	s11, 1
	beq	t4, s11, .Lnoise_BB90_10
.Lnoise_BB90_6:
	li	s1, 0
	sd	zero, 248(sp)
	sd	zero, 256(sp)
	sd	zero, 264(sp)
	sd	zero, 272(sp)
	j	.Lnoise_BB90_11
.Lnoise_BB90_7:
	bne	t4, ra, .Lnoise_BB90_12
	sd	zero, 8(sp)
	lbu	t0, 24(a3)
	lbu	t1, 25(a3)
	lbu	t2, 26(a3)
	lbu	s5, 27(a3)
	lbu	t3, 28(a3)
	lbu	a0, 29(a3)
	lbu	t4, 30(a3)
	lbu	t5, 31(a3)
	lbu	t6, 16(a3)
	lbu	s3, 17(a3)
	lbu	a1, 18(a3)
	lbu	s7, 19(a3)
	lbu	s6, 20(a3)
	lbu	s10, 21(a3)
	sd	s1, 16(sp)
	lbu	s1, 22(a3)
	lbu	s9, 23(a3)
	slli	t1, t1, 8
	slli	t2, t2, 16
	slli	s5, s5, 24
	slli	a0, a0, 8
	or	t0, t1, t0
	or	t1, s5, t2
	or	t2, a0, t3
	lbu	s5, 8(a3)
	lbu	s11, 9(a3)
	lbu	ra, 10(a3)
	lbu	a0, 11(a3)
	slli	t4, t4, 16
	slli	t5, t5, 24
	slli	s3, s3, 8
	slli	a1, a1, 16
	slli	s7, s7, 24
	slli	s10, s10, 8
	or	t3, t5, t4
	or	t4, s3, t6
	or	t5, s7, a1
	or	t6, s10, s6
	lbu	a5, 12(a3)
	lbu	a4, 13(a3)
	lbu	s3, 14(a3)
	lbu	s0, 15(a3)
	slli	s1, s1, 16
	slli	s9, s9, 24
	slli	s11, s11, 8
	slli	ra, ra, 16
	slli	a0, a0, 24
	slli	a4, a4, 8
	or	s6, s9, s1
	or	s5, s11, s5
	or	s7, a0, ra
	ld	ra, 8(sp)
	or	s1, a4, a5
	lbu	a5, 0(a3)
	lbu	a0, 1(a3)
	lbu	a4, 2(a3)
	lbu	a1, 3(a3)
	slli	s3, s3, 16
	slli	s0, s0, 24
	slli	a0, a0, 8
	slli	a4, a4, 16
	slli	a1, a1, 24
	or	s3, s0, s3
	or	s0, a0, a5
	or	s9, a1, a4
	lbu	a4, 5(a3)
	lbu	a5, 4(a3)
	lbu	a0, 6(a3)
	lbu	a3, 7(a3)
	slli	a4, a4, 8
	or	s10, a4, a5
	slli	a0, a0, 16
	slli	a3, a3, 24
	or	a0, a0, a3
	or	a3, t1, t0
	or	a5, t3, t2
	or	t1, t5, t4
	or	a4, s6, t6
	or	t0, s7, s5
	or	a1, s3, s1
	or	t2, s9, s0
	or	a0, a0, s10
	slli	a5, a5, 32
	or	a3, a3, a5
	slli	a4, a4, 32
	or	a4, a4, t1
	slli	a1, a1, 32
	or	a1, a1, t0
	slli	a0, a0, 32
	or	a0, a0, t2
	sd	a0, 216(sp)
	sd	a1, 224(sp)
	sd	a4, 232(sp)
	sd	a3, 240(sp)
	ld	s3, 16(sp)
	li	s11, 1
	beq	a7, s11, .Lnoise_BB90_13
	j	.Lnoise_BB90_15
.Lnoise_BB90_9:
	li	s3, 0
	sd	zero, 216(sp)
	sd	zero, 224(sp)
	sd	zero, 232(sp)
	sd	zero, 240(sp)
	li	s11, 1
	bne	t4, s11, .Lnoise_BB90_6
.Lnoise_BB90_10:
	li	s11, 0
	lbu	a6, 24(a3)
	lbu	t0, 25(a3)
	lbu	t1, 26(a3)
	lbu	a4, 27(a3)
	lbu	a5, 28(a3)
	lbu	a0, 29(a3)
	lbu	a7, 30(a3)
	lbu	t2, 31(a3)
	lbu	t3, 16(a3)
	lbu	t4, 17(a3)
	lbu	t6, 18(a3)
	lbu	s6, 19(a3)
	lbu	t5, 20(a3)
	lbu	a1, 21(a3)
	lbu	s0, 22(a3)
	lbu	s5, 23(a3)
	slli	t0, t0, 8
	slli	t1, t1, 16
	slli	a4, a4, 24
	slli	a0, a0, 8
	or	t0, t0, a6
	or	t1, a4, t1
	or	a6, a0, a5
	lbu	s7, 8(a3)
	lbu	s8, 9(a3)
	lbu	s9, 10(a3)
	lbu	a2, 11(a3)
	slli	a7, a7, 16
	slli	t2, t2, 24
	slli	t4, t4, 8
	slli	t6, t6, 16
	slli	s6, s6, 24
	slli	a1, a1, 8
	or	t2, t2, a7
	or	a7, t4, t3
	or	t4, s6, t6
	or	t3, a1, t5
	lbu	a1, 12(a3)
	lbu	a4, 13(a3)
	lbu	s6, 14(a3)
	lbu	a0, 15(a3)
	slli	s0, s0, 16
	slli	s5, s5, 24
	slli	s8, s8, 8
	slli	s9, s9, 16
	slli	a2, a2, 24
	slli	a4, a4, 8
	or	t5, s5, s0
	or	t6, s8, s7
	or	s5, a2, s9
	or	s0, a4, a1
	lbu	a4, 0(a3)
	lbu	a1, 1(a3)
	lbu	a2, 2(a3)
	lbu	a5, 3(a3)
	slli	s6, s6, 16
	slli	a0, a0, 24
	slli	a1, a1, 8
	slli	a2, a2, 16
	slli	a5, a5, 24
	or	s6, a0, s6
	or	s7, a1, a4
	or	s8, a5, a2
	lbu	a4, 5(a3)
	lbu	a5, 4(a3)
	lbu	a0, 6(a3)
	lbu	a3, 7(a3)
	slli	a4, a4, 8
	or	s9, a4, a5
	slli	a0, a0, 16
	slli	a3, a3, 24
	or	a0, a0, a3
	or	a3, t1, t0
	or	a5, t2, a6
	or	a6, t4, a7
	or	a2, t5, t3
	or	a4, s5, t6
	or	a1, s6, s0
	or	a7, s8, s7
	or	a0, a0, s9
	slli	a5, a5, 32
	or	a3, a3, a5
	slli	a2, a2, 32
	or	a2, a2, a6
	slli	a1, a1, 32
	or	a1, a1, a4
	slli	a0, a0, 32
	or	a0, a0, a7
	sd	a0, 248(sp)
	sd	a1, 256(sp)
	sd	a2, 264(sp)
	sd	a3, 272(sp)
.Lnoise_BB90_11:
	sh	zero, 212(sp)
	sb	zero, 214(sp)
	sh	zero, 208(sp)
	sb	zero, 210(sp)
	mv	s8, s1
	j	.Lnoise_BB90_17
.Lnoise_BB90_12:
	li	s3, 0
	sd	zero, 216(sp)
	sd	zero, 224(sp)
	sd	zero, 232(sp)
	sd	zero, 240(sp)
	li	s11, 1
	bne	a7, s11, .Lnoise_BB90_15
.Lnoise_BB90_13:
	andi	a0, a6, 1
	bnez	a0, .Lnoise_BB90_15
	li	s11, 0
	lbu	a6, 24(a2)
	lbu	t0, 25(a2)
	lbu	t4, 26(a2)
	lbu	a4, 27(a2)
	lbu	a5, 28(a2)
	lbu	a0, 29(a2)
	lbu	a7, 30(a2)
	lbu	t1, 31(a2)
	lbu	t2, 16(a2)
	lbu	t3, 17(a2)
	lbu	t6, 18(a2)
	lbu	s7, 19(a2)
	lbu	t5, 20(a2)
	lbu	a1, 21(a2)
	lbu	s5, 22(a2)
	lbu	s6, 23(a2)
	slli	t0, t0, 8
	slli	t4, t4, 16
	slli	a4, a4, 24
	slli	a0, a0, 8
	or	a6, t0, a6
	or	t0, a4, t4
	or	t4, a0, a5
	lbu	a5, 8(a2)
	lbu	s9, 9(a2)
	lbu	s10, 10(a2)
	lbu	a3, 11(a2)
	slli	a7, a7, 16
	slli	t1, t1, 24
	slli	t3, t3, 8
	slli	t6, t6, 16
	slli	s7, s7, 24
	slli	a1, a1, 8
	or	t1, t1, a7
	or	a7, t3, t2
	or	t3, s7, t6
	or	t2, a1, t5
	lbu	a1, 12(a2)
	lbu	a4, 13(a2)
	lbu	s7, 14(a2)
	lbu	a0, 15(a2)
	slli	s5, s5, 16
	slli	s6, s6, 24
	slli	s9, s9, 8
	slli	s10, s10, 16
	slli	a3, a3, 24
	slli	a4, a4, 8
	or	t5, s6, s5
	or	t6, s9, a5
	or	s6, a3, s10
	or	s5, a4, a1
	lbu	a4, 0(a2)
	lbu	a1, 1(a2)
	lbu	a3, 2(a2)
	lbu	a5, 3(a2)
	slli	s7, s7, 16
	slli	a0, a0, 24
	slli	a1, a1, 8
	slli	a3, a3, 16
	slli	a5, a5, 24
	or	s7, a0, s7
	or	s0, a1, a4
	or	s9, a5, a3
	lbu	a4, 5(a2)
	lbu	a5, 4(a2)
	lbu	a0, 6(a2)
	lbu	a2, 7(a2)
	slli	a4, a4, 8
	or	s10, a4, a5
	slli	a0, a0, 16
	slli	a2, a2, 24
	or	a0, a0, a2
	or	a2, t0, a6
	or	a5, t1, t4
	or	a6, t3, a7
	or	a3, t5, t2
	or	a4, s6, t6
	or	a1, s7, s5
	or	a7, s9, s0
	or	a0, a0, s10
	slli	a5, a5, 32
	or	a2, a2, a5
	slli	a3, a3, 32
	or	a3, a3, a6
	slli	a1, a1, 32
	or	a1, a1, a4
	slli	a0, a0, 32
	or	a0, a0, a7
	sd	a0, 248(sp)
	sd	a1, 256(sp)
	sd	a3, 264(sp)
	sd	a2, 272(sp)
	j	.Lnoise_BB90_16
.Lnoise_BB90_15:
	li	s8, 0
	sd	zero, 248(sp)
	sd	zero, 256(sp)
	sd	zero, 264(sp)
	sd	zero, 272(sp)
.Lnoise_BB90_16:
	sh	zero, 212(sp)
	sb	zero, 214(sp)
	sh	zero, 208(sp)
	sb	zero, 210(sp)
.Lnoise_BB90_17:
	lh	a0, 212(sp)
	lbu	a1, 214(sp)
	lh	a2, 208(sp)
	lbu	a3, 210(sp)
	li	s5, 78
	li	s6, 111
	sb	ra, 4(s2)
	li	a4, 8
	sh	a0, 28(sp)
	sb	a1, 30(sp)
	li	s7, 1
	sb	s7, 0(s2)
	sb	a4, 1(s2)
	sb	s6, 2(s2)
	sb	s5, 3(s2)
	sh	a2, 24(sp)
	sb	a3, 26(sp)
	addi	a0, s2, 5
	addi	a1, sp, 216
	li	a2, 32
	call	memcpy
	lbu	a6, 28(sp)
	lbu	a1, 29(sp)
	lbu	a2, 30(sp)
	srli	a3, s3, 56
	srli	a4, s3, 48
	srli	a5, s3, 40
	srli	s0, s3, 32
	srli	s1, s3, 24
	srli	a0, s3, 16
	sb	a5, 45(s2)
	sb	a4, 46(s2)
	sb	a3, 47(s2)
	srli	a3, s3, 8
	sb	a3, 41(s2)
	sb	a0, 42(s2)
	sb	s1, 43(s2)
	sb	s0, 44(s2)
	li	a0, 9
	sb	a6, 37(s2)
	sb	a1, 38(s2)
	sb	a2, 39(s2)
	sb	s3, 40(s2)
	sb	s7, 0(s4)
	sb	a0, 1(s4)
	sb	s6, 2(s4)
	sb	s5, 3(s4)
	sb	s11, 4(s4)
	addi	a0, s4, 5
	addi	a1, sp, 248
	li	a2, 32
	call	memcpy
	li	a0, 0
	lbu	a6, 24(sp)
	lbu	a7, 25(sp)
	lbu	a3, 26(sp)
	srli	a4, s8, 56
	srli	a5, s8, 48
	srli	s1, s8, 40
	srli	s0, s8, 32
	srli	a1, s8, 24
	srli	a2, s8, 16
	sb	s1, 45(s4)
	sb	a5, 46(s4)
	sb	a4, 47(s4)
	srli	a4, s8, 8
	sb	a4, 41(s4)
	sb	a2, 42(s4)
	sb	a1, 43(s4)
	sb	s0, 44(s4)
	sb	a6, 37(s4)
	sb	a7, 38(s4)
	sb	a3, 39(s4)
	sb	s8, 40(s4)
.Lnoise_BB90_18:
	ld	ra, 376(sp)
	ld	s0, 368(sp)
	ld	s1, 360(sp)
	ld	s2, 352(sp)
	ld	s3, 344(sp)
	ld	s4, 336(sp)
	ld	s5, 328(sp)
	ld	s6, 320(sp)
	ld	s7, 312(sp)
	ld	s8, 304(sp)
	ld	s9, 296(sp)
	ld	s10, 288(sp)
	ld	s11, 280(sp)
	.cfi_restore ra
	.cfi_restore s0
	.cfi_restore s1
	.cfi_restore s2
	.cfi_restore s3
	.cfi_restore s4
	.cfi_restore s5
	.cfi_restore s6
	.cfi_restore s7
	.cfi_restore s8
	.cfi_restore s9
	.cfi_restore s10
	.cfi_restore s11
	addi	sp, sp, 384
	.cfi_def_cfa_offset 0
	ret
.Lnoise_func_end90:
	.size	noise_finish_ciphers, .Lnoise_func_end90-noise_finish_ciphers
	.cfi_endproc

	.section	.text.noise_finish_stream,"ax",@progbits
	.globl	noise_finish_stream
	.p2align	1
	.type	noise_finish_stream,@function
noise_finish_stream:
	.cfi_startproc
	addi	sp, sp, -560
	.cfi_def_cfa_offset 560
	sd	ra, 552(sp)
	sd	s0, 544(sp)
	sd	s1, 536(sp)
	sd	s2, 528(sp)
	sd	s3, 520(sp)
	sd	s4, 512(sp)
	sd	s5, 504(sp)
	sd	s6, 496(sp)
	sd	s7, 488(sp)
	sd	s8, 480(sp)
	sd	s9, 472(sp)
	sd	s10, 464(sp)
	sd	s11, 456(sp)
	.cfi_offset ra, -8
	.cfi_offset s0, -16
	.cfi_offset s1, -24
	.cfi_offset s2, -32
	.cfi_offset s3, -40
	.cfi_offset s4, -48
	.cfi_offset s5, -56
	.cfi_offset s6, -64
	.cfi_offset s7, -72
	.cfi_offset s8, -80
	.cfi_offset s9, -88
	.cfi_offset s10, -96
	.cfi_offset s11, -104
	.cfi_remember_state
	mv	s11, a3
	mv	s7, a2
	mv	s0, a1
	mv	a1, a0
	addi	a0, sp, 216
	call	noise_noise_c_split_finished
	lbu	a0, 216(sp)
	beqz	a0, .Lnoise_BB91_2
	lw	a0, 220(sp)
	j	.Lnoise_BB91_8
.Lnoise_BB91_2:
	sd	s0, 112(sp)
	lbu	a0, 224(sp)
	lbu	a1, 296(sp)
	sd	a1, 128(sp)
	ld	a1, 336(sp)
	sd	a1, 120(sp)
	lbu	a1, 344(sp)
	sd	a1, 144(sp)
	ld	a1, 384(sp)
	sd	a1, 136(sp)
	addi	a4, sp, 297
	addi	a3, sp, 345
	sd	a0, 104(sp)
	beqz	a0, .Lnoise_BB91_4
	lbu	t2, 24(a3)
	lbu	s3, 25(a3)
	lbu	s6, 26(a3)
	lbu	a5, 27(a3)
	lbu	a6, 28(a3)
	lbu	t3, 29(a3)
	lbu	t4, 30(a3)
	lbu	t5, 31(a3)
	lbu	t6, 16(a3)
	lbu	a1, 17(a3)
	lbu	s0, 18(a3)
	lbu	a2, 19(a3)
	lbu	a7, 20(a3)
	lbu	s2, 21(a3)
	lbu	s4, 22(a3)
	lbu	s5, 23(a3)
	lbu	s1, 8(a3)
	lbu	s9, 9(a3)
	lbu	t0, 10(a3)
	lbu	t1, 11(a3)
	slli	s3, s3, 8
	slli	s6, s6, 16
	slli	a5, a5, 24
	or	a0, s3, t2
	sd	a0, 96(sp)
	or	a0, a5, s6
	sd	a0, 88(sp)
	lbu	s3, 12(a3)
	lbu	s8, 13(a3)
	lbu	s10, 14(a3)
	lbu	ra, 15(a3)
	slli	t3, t3, 8
	slli	t4, t4, 16
	slli	t5, t5, 24
	slli	a1, a1, 8
	slli	s0, s0, 16
	slli	a2, a2, 24
	or	a0, t3, a6
	sd	a0, 80(sp)
	or	a0, t5, t4
	sd	a0, 72(sp)
	or	a0, a1, t6
	sd	a0, 64(sp)
	or	a2, a2, s0
	sd	a2, 56(sp)
	lbu	a1, 0(a3)
	lbu	a2, 1(a3)
	lbu	a6, 2(a3)
	lbu	a5, 3(a3)
	slli	s2, s2, 8
	slli	s4, s4, 16
	slli	a0, s5, 24
	slli	s9, s9, 8
	or	s0, s2, a7
	sd	s0, 48(sp)
	or	a0, a0, s4
	sd	a0, 40(sp)
	or	a0, s9, s1
	sd	a0, 32(sp)
	lbu	a7, 4(a3)
	lbu	s2, 5(a3)
	lbu	s4, 6(a3)
	lbu	a3, 7(a3)
	slli	t0, t0, 16
	slli	t1, t1, 24
	slli	s8, s8, 8
	slli	s10, s10, 16
	slli	ra, ra, 24
	slli	a2, a2, 8
	or	a0, t1, t0
	sd	a0, 24(sp)
	or	a0, s8, s3
	sd	a0, 16(sp)
	or	ra, ra, s10
	or	a1, a1, a2
	sd	a1, 8(sp)
	lbu	a1, 0(a4)
	lbu	a2, 1(a4)
	lbu	t1, 2(a4)
	lbu	a0, 3(a4)
	slli	a6, a6, 16
	slli	a5, a5, 24
	slli	s0, s2, 8
	slli	s4, s4, 16
	slli	a3, a3, 24
	slli	a2, a2, 8
	or	s10, a5, a6
	or	a5, s0, a7
	sd	a5, 0(sp)
	or	s5, a3, s4
	or	s8, a2, a1
	lbu	a6, 4(a4)
	lbu	a2, 5(a4)
	lbu	a3, 6(a4)
	lbu	a5, 7(a4)
	slli	t1, t1, 16
	slli	a0, a0, 24
	slli	a2, a2, 8
	slli	a1, a3, 16
	slli	a5, a5, 24
	or	s3, a0, t1
	or	s6, a2, a6
	or	s2, a5, a1
	lbu	a2, 9(a4)
	lbu	a1, 8(a4)
	lbu	a5, 10(a4)
	lbu	a0, 11(a4)
	slli	a2, a2, 8
	or	s4, a2, a1
	slli	a5, a5, 16
	slli	a0, a0, 24
	or	t6, a0, a5
	lbu	a7, 13(a4)
	lbu	a1, 12(a4)
	lbu	t1, 14(a4)
	lbu	a0, 15(a4)
	slli	a7, a7, 8
	or	t5, a7, a1
	slli	t1, t1, 16
	slli	a0, a0, 24
	or	t4, a0, t1
	lbu	a2, 17(a4)
	lbu	t1, 16(a4)
	lbu	a1, 18(a4)
	lbu	a0, 19(a4)
	slli	a2, a2, 8
	or	t3, a2, t1
	slli	a1, a1, 16
	slli	a0, a0, 24
	or	t2, a0, a1
	lbu	a3, 21(a4)
	lbu	a2, 20(a4)
	lbu	a1, 22(a4)
	lbu	a0, 23(a4)
	slli	a3, a3, 8
	or	t1, a3, a2
	slli	a1, a1, 16
	slli	a0, a0, 24
	or	t0, a0, a1
	lbu	a2, 25(a4)
	lbu	a3, 24(a4)
	lbu	a1, 26(a4)
	lbu	a0, 27(a4)
	slli	a2, a2, 8
	or	a7, a2, a3
	slli	a1, a1, 16
	slli	a0, a0, 24
	or	a6, a0, a1
	lbu	a1, 29(a4)
	lbu	a3, 28(a4)
	lbu	a0, 30(a4)
	lbu	a4, 31(a4)
	slli	a1, a1, 8
	or	a5, a1, a3
	slli	a0, a0, 16
	slli	a4, a4, 24
	or	a1, a4, a0
	ld	a0, 96(sp)
	ld	a3, 88(sp)
	or	a3, a3, a0
	ld	a0, 80(sp)
	ld	a4, 72(sp)
	or	a4, a4, a0
	ld	a0, 64(sp)
	ld	a2, 56(sp)
	or	a2, a2, a0
	ld	a0, 48(sp)
	ld	s9, 40(sp)
	or	a0, s9, a0
	ld	s1, 32(sp)
	ld	s0, 24(sp)
	or	s9, s0, s1
	ld	s0, 16(sp)
	or	ra, ra, s0
	ld	s0, 8(sp)
	or	s1, s10, s0
	ld	s0, 0(sp)
	or	s5, s5, s0
	or	s3, s3, s8
	or	s2, s2, s6
	or	t6, t6, s4
	or	s0, t4, t5
	or	t2, t2, t3
	or	t0, t0, t1
	or	a6, a6, a7
	or	a1, a1, a5
	slli	a4, a4, 32
	or	a7, a4, a3
	slli	a0, a0, 32
	or	a0, a0, a2
	slli	ra, ra, 32
	or	a2, ra, s9
	slli	s5, s5, 32
	or	a4, s5, s1
	slli	s2, s2, 32
	or	a5, s2, s3
	slli	s0, s0, 32
	or	s0, s0, t6
	slli	t0, t0, 32
	or	a3, t0, t2
	slli	a1, a1, 32
	or	a1, a1, a6
	sd	a4, 424(sp)
	sd	a2, 432(sp)
	sd	a0, 440(sp)
	sd	a7, 448(sp)
	sd	a5, 392(sp)
	sd	s0, 400(sp)
	sd	a3, 408(sp)
	sd	a1, 416(sp)
	ld	a6, 144(sp)
	ld	s0, 136(sp)
	ld	a1, 128(sp)
	ld	a0, 120(sp)
	j	.Lnoise_BB91_5
.Lnoise_BB91_4:
	lbu	a6, 24(a4)
	lbu	t0, 25(a4)
	lbu	t3, 26(a4)
	lbu	t4, 27(a4)
	lbu	t2, 28(a4)
	lbu	s0, 29(a4)
	lbu	a0, 30(a4)
	lbu	a2, 31(a4)
	lbu	a1, 16(a4)
	sd	a1, 64(sp)
	lbu	t5, 17(a4)
	lbu	t6, 18(a4)
	lbu	a7, 19(a4)
	lbu	s5, 20(a4)
	lbu	a5, 21(a4)
	lbu	s2, 22(a4)
	lbu	s4, 23(a4)
	lbu	s6, 8(a4)
	lbu	s8, 9(a4)
	lbu	s9, 10(a4)
	lbu	ra, 11(a4)
	lbu	s10, 12(a4)
	lbu	a1, 13(a4)
	lbu	s1, 14(a4)
	sd	s1, 8(sp)
	lbu	s3, 15(a4)
	slli	t0, t0, 8
	slli	t3, t3, 16
	slli	t4, t4, 24
	slli	s0, s0, 8
	slli	a0, a0, 16
	slli	a2, a2, 24
	or	s1, t0, a6
	sd	s1, 96(sp)
	or	s1, t4, t3
	sd	s1, 88(sp)
	or	s1, s0, t2
	sd	s1, 80(sp)
	or	a0, a0, a2
	sd	a0, 72(sp)
	lbu	t1, 0(a4)
	lbu	t0, 1(a4)
	lbu	s0, 2(a4)
	lbu	a6, 3(a4)
	slli	t5, t5, 8
	slli	t6, t6, 16
	slli	s1, a7, 24
	slli	a5, a5, 8
	ld	a0, 64(sp)
	or	a0, t5, a0
	sd	a0, 64(sp)
	or	a0, s1, t6
	sd	a0, 56(sp)
	or	a0, a5, s5
	sd	a0, 48(sp)
	lbu	a5, 4(a4)
	lbu	a2, 5(a4)
	lbu	a7, 6(a4)
	lbu	a4, 7(a4)
	slli	s2, s2, 16
	slli	s4, s4, 24
	slli	s8, s8, 8
	slli	s9, s9, 16
	slli	ra, ra, 24
	slli	a1, a1, 8
	or	a0, s4, s2
	sd	a0, 40(sp)
	or	a0, s8, s6
	sd	a0, 32(sp)
	or	a0, ra, s9
	sd	a0, 24(sp)
	or	a0, a1, s10
	sd	a0, 16(sp)
	lbu	s2, 0(a3)
	lbu	s4, 1(a3)
	lbu	a1, 2(a3)
	lbu	a0, 3(a3)
	ld	s10, 8(sp)
	slli	s10, s10, 16
	slli	s3, s3, 24
	slli	t0, t0, 8
	slli	s0, s0, 16
	slli	a6, a6, 24
	slli	a2, a2, 8
	or	ra, s3, s10
	or	s1, t0, t1
	sd	s1, 8(sp)
	or	s8, a6, s0
	or	a2, a2, a5
	sd	a2, 0(sp)
	lbu	t1, 4(a3)
	lbu	a5, 5(a3)
	lbu	a6, 6(a3)
	lbu	s0, 7(a3)
	slli	a7, a7, 16
	slli	a4, a4, 24
	slli	a2, s4, 8
	slli	a1, a1, 16
	slli	a0, a0, 24
	slli	a5, a5, 8
	or	s6, a4, a7
	or	s9, a2, s2
	or	s5, a0, a1
	or	s4, a5, t1
	lbu	a0, 8(a3)
	lbu	a1, 9(a3)
	lbu	a2, 10(a3)
	lbu	a4, 11(a3)
	slli	a6, a6, 16
	slli	s0, s0, 24
	slli	a1, a1, 8
	slli	a2, a2, 16
	slli	a5, a4, 24
	or	s3, s0, a6
	or	s2, a1, a0
	or	t6, a5, a2
	lbu	s0, 13(a3)
	lbu	a1, 12(a3)
	lbu	a5, 14(a3)
	lbu	a0, 15(a3)
	slli	s0, s0, 8
	or	s0, s0, a1
	slli	a5, a5, 16
	slli	a0, a0, 24
	or	t5, a0, a5
	lbu	a2, 17(a3)
	lbu	a5, 16(a3)
	lbu	a1, 18(a3)
	lbu	a0, 19(a3)
	slli	a2, a2, 8
	or	t4, a2, a5
	slli	a1, a1, 16
	slli	a0, a0, 24
	or	t3, a0, a1
	lbu	a4, 21(a3)
	lbu	a2, 20(a3)
	lbu	a1, 22(a3)
	lbu	a0, 23(a3)
	slli	a4, a4, 8
	or	t2, a4, a2
	slli	a1, a1, 16
	slli	a0, a0, 24
	or	t1, a0, a1
	lbu	a2, 25(a3)
	lbu	a4, 24(a3)
	lbu	a1, 26(a3)
	lbu	a0, 27(a3)
	slli	a2, a2, 8
	or	t0, a2, a4
	slli	a1, a1, 16
	slli	a0, a0, 24
	or	a7, a0, a1
	lbu	a1, 29(a3)
	lbu	a4, 28(a3)
	lbu	a0, 30(a3)
	lbu	a3, 31(a3)
	slli	a1, a1, 8
	or	a6, a1, a4
	slli	a0, a0, 16
	slli	a3, a3, 24
	or	a3, a3, a0
	ld	a0, 96(sp)
	ld	a2, 88(sp)
	or	a2, a2, a0
	ld	a0, 80(sp)
	ld	a4, 72(sp)
	or	a4, a4, a0
	ld	a0, 64(sp)
	ld	a1, 56(sp)
	or	a1, a1, a0
	ld	a0, 48(sp)
	ld	a5, 40(sp)
	or	a0, a0, a5
	ld	a5, 32(sp)
	ld	s10, 24(sp)
	or	a5, s10, a5
	ld	s1, 16(sp)
	or	ra, ra, s1
	ld	s1, 8(sp)
	or	s8, s8, s1
	ld	s1, 0(sp)
	or	s6, s6, s1
	or	s5, s5, s9
	or	s3, s3, s4
	or	t6, t6, s2
	or	s0, t5, s0
	or	t3, t3, t4
	or	t1, t1, t2
	or	a7, a7, t0
	or	a3, a3, a6
	slli	a4, a4, 32
	or	a6, a4, a2
	slli	a0, a0, 32
	or	a0, a0, a1
	slli	ra, ra, 32
	or	a1, ra, a5
	slli	s6, s6, 32
	or	a4, s6, s8
	slli	s3, s3, 32
	or	a5, s3, s5
	slli	s0, s0, 32
	or	s0, s0, t6
	slli	t1, t1, 32
	or	a2, t1, t3
	slli	a3, a3, 32
	or	a3, a3, a7
	sd	a4, 424(sp)
	sd	a1, 432(sp)
	sd	a0, 440(sp)
	sd	a6, 448(sp)
	sd	a5, 392(sp)
	sd	s0, 400(sp)
	sd	a2, 408(sp)
	sd	a3, 416(sp)
	ld	a6, 128(sp)
	ld	s0, 120(sp)
	ld	a0, 136(sp)
	ld	a1, 144(sp)
.Lnoise_BB91_5:
	sd	a1, 144(sp)
	sd	a0, 136(sp)
	lbu	a7, 225(sp)
	ld	a2, 424(sp)
	ld	a3, 432(sp)
	ld	a4, 440(sp)
	ld	a5, 448(sp)
	ld	t0, 392(sp)
	ld	a1, 400(sp)
	ld	s1, 408(sp)
	ld	a0, 416(sp)
	sd	a2, 184(sp)
	sd	a3, 192(sp)
	sd	a4, 200(sp)
	sd	a5, 208(sp)
	li	a3, 1
	sd	t0, 152(sp)
	sd	a1, 160(sp)
	sd	s1, 168(sp)
	sd	a0, 176(sp)
	bne	a6, a3, .Lnoise_BB91_9
	andi	s8, a7, 1
	ld	a0, 104(sp)
	snez	s3, a0
	li	a1, 78
	li	a2, 111
	li	a0, 10
	addi	s3, s3, 1
	sb	a3, 0(s7)
	sb	a0, 1(s7)
	sb	a2, 2(s7)
	sb	a1, 3(s7)
	sb	s3, 4(s7)
	sb	s8, 5(s7)
	addi	a0, s7, 6
	addi	a1, sp, 184
	li	a2, 32
	call	memcpy
	ld	s1, 112(sp)
	srli	a4, s1, 56
	srli	s6, s1, 48
	srli	s4, s1, 40
	srli	s5, s1, 32
	srli	s2, s1, 24
	srli	s10, s1, 16
	srli	s9, s1, 8
	srli	a0, s0, 40
	srli	a1, s0, 32
	srli	a2, s0, 24
	srli	a3, s0, 16
	sb	a3, 50(s7)
	sb	a2, 51(s7)
	sb	a1, 52(s7)
	sb	a0, 53(s7)
	srli	a0, s0, 8
	sb	s6, 46(s7)
	sd	a4, 128(sp)
	sb	a4, 47(s7)
	sb	s0, 48(s7)
	sb	a0, 49(s7)
	srli	a0, s0, 56
	srli	s0, s0, 48
	sb	zero, 62(s7)
	sb	zero, 63(s7)
	sb	zero, 58(s7)
	sb	zero, 59(s7)
	sb	zero, 60(s7)
	sb	zero, 61(s7)
	sb	s10, 42(s7)
	sb	s2, 43(s7)
	sb	s5, 44(s7)
	sb	s4, 45(s7)
	sb	zero, 38(s7)
	sb	zero, 39(s7)
	sb	s1, 40(s7)
	sb	s9, 41(s7)
	sb	s0, 54(s7)
	sb	a0, 55(s7)
	sb	zero, 56(s7)
	sb	zero, 57(s7)
	ld	a0, 144(sp)
	li	a1, 1
	bne	a0, a1, .Lnoise_BB91_9
	li	a0, 11
	sb	s3, 4(s11)
	sb	s8, 5(s11)
	li	a1, 1
	sb	a1, 0(s11)
	sb	a0, 1(s11)
	li	a0, 111
	sb	a0, 2(s11)
	li	a0, 78
	sb	a0, 3(s11)
	addi	a0, s11, 6
	addi	a1, sp, 152
	li	a2, 32
	call	memcpy
	li	a0, 0
	sb	s10, 42(s11)
	sb	s2, 43(s11)
	sb	s5, 44(s11)
	sb	s4, 45(s11)
	sb	zero, 38(s11)
	sb	zero, 39(s11)
	sb	s1, 40(s11)
	sb	s9, 41(s11)
	ld	a1, 136(sp)
	srli	a6, a1, 56
	srli	a2, a1, 48
	srli	a3, a1, 40
	srli	a4, a1, 32
	srli	a5, a1, 24
	srli	s1, a1, 16
	srli	s0, a1, 8
	sb	zero, 62(s11)
	sb	zero, 63(s11)
	sb	zero, 58(s11)
	sb	zero, 59(s11)
	sb	zero, 60(s11)
	sb	zero, 61(s11)
	sb	s1, 50(s11)
	sb	a5, 51(s11)
	sb	a4, 52(s11)
	sb	a3, 53(s11)
	sb	s6, 46(s11)
	ld	a3, 128(sp)
	sb	a3, 47(s11)
	sb	a1, 48(s11)
	sb	s0, 49(s11)
	sb	a2, 54(s11)
	sb	a6, 55(s11)
	sb	zero, 56(s11)
	sb	zero, 57(s11)
.Lnoise_BB91_8:
	ld	ra, 552(sp)
	ld	s0, 544(sp)
	ld	s1, 536(sp)
	ld	s2, 528(sp)
	ld	s3, 520(sp)
	ld	s4, 512(sp)
	ld	s5, 504(sp)
	ld	s6, 496(sp)
	ld	s7, 488(sp)
	ld	s8, 480(sp)
	ld	s9, 472(sp)
	ld	s10, 464(sp)
	ld	s11, 456(sp)
	.cfi_restore ra
	.cfi_restore s0
	.cfi_restore s1
	.cfi_restore s2
	.cfi_restore s3
	.cfi_restore s4
	.cfi_restore s5
	.cfi_restore s6
	.cfi_restore s7
	.cfi_restore s8
	.cfi_restore s9
	.cfi_restore s10
	.cfi_restore s11
	addi	sp, sp, 560
	.cfi_def_cfa_offset 0
	ret
.Lnoise_BB91_9:
	.cfi_restore_state
	unimp
.Lnoise_func_end91:
	.size	noise_finish_stream, .Lnoise_func_end91-noise_finish_stream
	.cfi_endproc

	.section	.text.noise_datagram_open,"ax",@progbits
	.globl	noise_datagram_open
	.p2align	1
	.type	noise_datagram_open,@function
noise_datagram_open:
	.cfi_startproc
	addi	sp, sp, -480
	.cfi_def_cfa_offset 480
	sd	ra, 472(sp)
	sd	s0, 464(sp)
	sd	s1, 456(sp)
	sd	s2, 448(sp)
	sd	s3, 440(sp)
	sd	s4, 432(sp)
	sd	s5, 424(sp)
	sd	s6, 416(sp)
	sd	s7, 408(sp)
	sd	s8, 400(sp)
	sd	s9, 392(sp)
	sd	s10, 384(sp)
	sd	s11, 376(sp)
	.cfi_offset ra, -8
	.cfi_offset s0, -16
	.cfi_offset s1, -24
	.cfi_offset s2, -32
	.cfi_offset s3, -40
	.cfi_offset s4, -48
	.cfi_offset s5, -56
	.cfi_offset s6, -64
	.cfi_offset s7, -72
	.cfi_offset s8, -80
	.cfi_offset s9, -88
	.cfi_offset s10, -96
	.cfi_offset s11, -104
	.cfi_remember_state
	mv	a4, a0
	lw	a5, 0(a0)
	sd	zero, 64(sp)
	lui	a0, 321264
	addi	s1, a0, 1793
	li	a0, 23
	bne	a5, s1, .Lnoise_BB92_61
	lbu	a5, 4(a4)
	li	s9, 1
	beq	a5, s9, .Lnoise_BB92_7
	li	s1, 2
	bne	a5, s1, .Lnoise_BB92_61
	li	s9, 0
	li	s2, 1
	lw	a5, 8(a4)
	lbu	s8, 5(a4)
	li	s1, 64
	beq	a5, s1, .Lnoise_BB92_8
.Lnoise_BB92_4:
	li	s1, 1024
	beq	a5, s1, .Lnoise_BB92_9
	li	s1, 256
	bne	a5, s1, .Lnoise_BB92_61
	mv	s4, a1
	mv	s3, a2
	mv	s6, a3
	li	s0, 1
	j	.Lnoise_BB92_10
.Lnoise_BB92_7:
	li	s2, 0
	lw	a5, 8(a4)
	lbu	s8, 5(a4)
	li	s1, 64
	bne	a5, s1, .Lnoise_BB92_4
.Lnoise_BB92_8:
	mv	s4, a1
	mv	s3, a2
	mv	s6, a3
	li	s0, 0
	j	.Lnoise_BB92_10
.Lnoise_BB92_9:
	mv	s4, a1
	mv	s3, a2
	mv	s6, a3
	li	s0, 2
.Lnoise_BB92_10:
	ld	s1, 48(a4)
	mv	s5, a4
	addi	s7, a4, 56
	addi	s11, sp, 240
	li	a2, 136
	mv	a0, s11
	mv	a1, s7
	call	memcpy
	sd	zero, 224(sp)
	sb	s0, 224(sp)
	li	a1, -1
	sd	s1, 232(sp)
	li	a0, 23
	beq	s1, a1, .Lnoise_BB92_61
	slli	a2, s0, 3
.Lnoise_pcrel_hi70:
	auipc	s10, %pcrel_hi(.Lnoise_switch.table.noise_datagram_open.202)
	addi	s10, s10, %pcrel_lo(.Lnoise_pcrel_hi70)
	add	a2, a2, s10
	ld	a3, 0(a2)
	srli	a1, s1, 6
	remu	a3, a1, a3
	slli	a3, a3, 3
	add	a3, a3, s11
	ld	a3, 0(a3)
	srl	a4, a3, s1
	li	a5, 1
	beq	a4, a5, .Lnoise_BB92_13
	or	a3, a3, s1
	bnez	a3, .Lnoise_BB92_61
.Lnoise_BB92_13:
	ld	a2, 0(a2)
	seqz	s0, s4
	addi	a1, a1, 1
	slli	s0, s0, 12
	bltu	a1, a2, .Lnoise_BB92_15
	mv	a1, a2
.Lnoise_BB92_15:
	add	s0, s0, s4
	addi	s4, s5, 12
	snez	s8, s8
	slli	a2, a1, 3
	add	s11, s11, a2
	addi	a1, a1, -18
.Lnoise_BB92_16:
	addi	a1, a1, 1
	beqz	a1, .Lnoise_BB92_18
	ld	a2, 0(s11)
	addi	s11, s11, 8
	beqz	a2, .Lnoise_BB92_16
	j	.Lnoise_BB92_61
.Lnoise_BB92_18:
	addi	a0, sp, 72
	addi	a1, sp, 224
	li	a2, 152
	call	memcpy
	sb	s2, 8(sp)
	sb	s8, 9(sp)
	sh	zero, 10(sp)
	sh	zero, 12(sp)
	sh	zero, 14(sp)
	sh	zero, 16(sp)
	sh	zero, 18(sp)
	sh	zero, 20(sp)
	li	a0, 1
	sh	zero, 22(sp)
	sb	a0, 24(sp)
	addi	s2, sp, 25
	li	a2, 32
	mv	a0, s2
	mv	a1, s4
	call	memcpy
	sb	zero, 57(sp)
	sb	zero, 58(sp)
	sb	zero, 59(sp)
	sb	zero, 60(sp)
	and	a0, s9, s8
	sb	zero, 61(sp)
	sb	zero, 62(sp)
	sb	zero, 63(sp)
	beqz	a0, .Lnoise_BB92_20
	li	a0, 22
	j	.Lnoise_BB92_61
.Lnoise_BB92_20:
	li	a0, 24
	bgeu	s3, a0, .Lnoise_BB92_22
	li	a0, 15
	j	.Lnoise_BB92_61
.Lnoise_BB92_22:
	mv	a5, s3
	lui	a6, 16
	addi	a1, a6, 7
	bgeu	a1, s3, .Lnoise_BB92_24
	li	a0, 11
	j	.Lnoise_BB92_61
.Lnoise_BB92_24:
	lbu	a2, 2(s0)
	lbu	a3, 3(s0)
	lbu	a7, 0(s0)
	lbu	t0, 1(s0)
	slli	a2, a2, 16
	slli	a3, a3, 24
	or	a4, a3, a2
	lbu	s1, 5(s0)
	lbu	a0, 4(s0)
	lbu	a2, 6(s0)
	lbu	a1, 7(s0)
	slli	s1, s1, 8
	or	a0, a0, s1
	slli	a3, a2, 16
	slli	a1, a1, 24
	or	a3, a3, a1
	slli	t0, t0, 8
	or	a1, t0, a7
	or	a1, a1, a4
	or	s1, a3, a0
	slli	a4, s1, 32
	or	a4, a4, a1
	li	a0, -1
	beq	a4, a0, .Lnoise_BB92_31
	srli	a0, a4, 24
	lui	t0, 4080
	srli	t3, a4, 8
	li	t1, 255
	srliw	s1, s1, 24
	slli	a2, a2, 8
	or	t2, a2, s1
	srliw	t4, a4, 24
	addi	a2, a6, -256
	slli	a7, a7, 56
	and	a6, a0, t0
	and	a4, a4, t0
	and	a1, a1, a2
	lbu	a2, 72(sp)
	ld	a0, 80(sp)
	slli	t1, t1, 24
	and	s1, t3, t1
.Lnoise_pcrel_hi71:
	auipc	a3, %pcrel_hi(.Lnoise_switch.table.noise_datagram_open.200)
	slli	t4, t4, 32
	addi	a3, a3, %pcrel_lo(.Lnoise_pcrel_hi71)
	slli	a4, a4, 24
	slli	a1, a1, 40
	or	s1, s1, a6
	or	a4, a4, t4
	or	a1, a7, a1
	or	s1, s1, t2
	or	a4, a4, a1
	slli	a1, a2, 3
	or	s1, s1, a4
	add	a3, a3, a1
	ld	a2, 0(a3)
	sub	a3, a0, s1
	sltu	a4, a0, a3
	addi	a4, a4, -1
	and	a3, a3, a4
	bgeu	a3, a2, .Lnoise_BB92_32
	srli	s8, s1, 6
	bltu	a0, s1, .Lnoise_BB92_28
	add	a1, a1, s10
	ld	a0, 0(a1)
	remu	a0, s8, a0
	slli	a0, a0, 3
	addi	a1, sp, 8
	add	a0, a0, a1
	ld	a0, 80(a0)
	srl	a0, a0, s1
	andi	a0, a0, 1
	bnez	a0, .Lnoise_BB92_45
.Lnoise_BB92_28:
	addi	s3, sp, 24
	sd	s1, 64(sp)
	sd	zero, 224(sp)
	sd	zero, 232(sp)
	addi	a5, a5, -8
	addi	a4, s0, 8
.Lnoise_pcrel_hi72:
	auipc	a2, %pcrel_hi(.Lnoise_static.1)
	addi	a2, a2, %pcrel_lo(.Lnoise_pcrel_hi72)
	addi	a0, sp, 224
	mv	a1, s3
	li	a3, 0
	call	noise_noise_state_cipher_CipherState_decrypt
	lbu	a0, 224(sp)
	beqz	a0, .Lnoise_BB92_33
	lbu	a0, 225(sp)
	li	a1, 3
	beq	a0, a1, .Lnoise_BB92_62
	li	a0, 16
	j	.Lnoise_BB92_61
.Lnoise_BB92_31:
	li	a0, 26
	j	.Lnoise_BB92_61
.Lnoise_BB92_32:
	li	a0, 27
	j	.Lnoise_BB92_61
.Lnoise_BB92_33:
	ld	a0, 16(sp)
	ld	s9, 232(sp)
	beqz	a0, .Lnoise_BB92_36
	ld	a1, 64(sp)
	remu	a0, a1, a0
	bnez	a0, .Lnoise_BB92_36
	mv	a0, s3
	call	noise_noise_state_cipher_CipherState_rekey
.Lnoise_BB92_36:
	ld	s0, 80(sp)
	lbu	a0, 72(sp)
	addi	s3, sp, 88
	bgeu	s0, s1, .Lnoise_BB92_46
	slli	a1, a0, 3
	add	a1, a1, s10
	ld	a3, 0(a1)
	srli	a2, s0, 6
	sub	a4, s8, a2
	mv	a1, s5
	bltu	a3, a4, .Lnoise_BB92_39
	mv	a3, a4
.Lnoise_BB92_39:
	mv	s0, s1
	beq	s8, a2, .Lnoise_BB92_47
	mv	a2, s6
	beqz	a0, .Lnoise_BB92_52
	li	a1, 1
	bne	a0, a1, .Lnoise_BB92_55
	slli	a1, s8, 3
	addi	a4, sp, 8
	add	a1, a1, a4
	addi	a1, a1, 80
	sub	a3, s8, a3
	mv	a4, s8
.Lnoise_BB92_43:
	lui	a5, 838861
	addi	s0, a5, -819
	slli	a5, s0, 32
	add	a5, a5, s0
	li	s0, -40
	mulhu	a5, a4, a5
	addi	a4, a4, -1
	srli	a5, a5, 2
	mul	a5, a5, s0
	add	a5, a5, a1
	sd	zero, 0(a5)
	addi	a1, a1, -8
	bne	a4, a3, .Lnoise_BB92_43
	li	a3, 5
	j	.Lnoise_BB92_58
.Lnoise_BB92_45:
	li	a0, 28
	j	.Lnoise_BB92_61
.Lnoise_BB92_46:
	mv	a1, s5
.Lnoise_BB92_47:
	beqz	a0, .Lnoise_BB92_50
	li	a2, 2
	bne	a0, a2, .Lnoise_BB92_51
	li	a3, 17
	j	.Lnoise_BB92_59
.Lnoise_BB92_50:
	li	a3, 2
	j	.Lnoise_BB92_59
.Lnoise_BB92_51:
	li	a3, 5
	j	.Lnoise_BB92_59
.Lnoise_BB92_52:
	slli	a1, s8, 3
.Lnoise_BB92_53:
	andi	a4, a1, 8
	addi	a3, a3, -1
	add	a4, a4, s3
	sd	zero, 0(a4)
	addi	a1, a1, -8
	bnez	a3, .Lnoise_BB92_53
	li	a3, 2
	j	.Lnoise_BB92_58
.Lnoise_BB92_55:
	slli	a1, s8, 3
	addi	a4, sp, 8
	add	a1, a1, a4
	addi	a1, a1, 80
	sub	a3, s8, a3
	mv	a4, s8
.Lnoise_BB92_56:
	lui	a5, 986895
	addi	s0, a5, 241
	slli	a5, s0, 32
	add	a5, a5, s0
	li	s0, -136
	mulhu	a5, a4, a5
	addi	a4, a4, -1
	srli	a5, a5, 4
	mul	a5, a5, s0
	add	a5, a5, a1
	sd	zero, 0(a5)
	addi	a1, a1, -8
	bne	a4, a3, .Lnoise_BB92_56
	li	a3, 17
.Lnoise_BB92_58:
	mv	s0, s1
	mv	a1, s5
	mv	s6, a2
.Lnoise_BB92_59:
	remu	a2, s8, a3
	slli	a2, a2, 3
	add	a3, s3, a2
	ld	a4, 0(a3)
	li	a2, 1
	sll	a5, a2, s1
	lbu	s1, 24(sp)
	or	a4, a4, a5
	sd	a4, 0(a3)
	li	a3, 8
	sd	a3, 0(s6)
	sd	s9, 8(s6)
	bne	s1, a2, .Lnoise_BB92_62
	lbu	a3, 8(sp)
	lbu	a4, 9(sp)
	slli	a0, a0, 2
.Lnoise_pcrel_hi73:
	auipc	a5, %pcrel_hi(.Lnoise_switch.table.noise_finish_datagrams)
	li	a6, 78
	li	s1, 111
	addi	a5, a5, %pcrel_lo(.Lnoise_pcrel_hi73)
	add	a0, a0, a5
	li	a5, 7
	lw	a0, 0(a0)
	sb	a2, 0(a1)
	sb	a5, 1(a1)
	sb	s1, 2(a1)
	sb	a6, 3(a1)
	andi	a4, a4, 1
	snez	a2, a3
	addi	a2, a2, 1
	sb	a2, 4(a1)
	sb	a4, 5(a1)
	sb	zero, 6(a1)
	sb	zero, 7(a1)
	srli	a2, a0, 24
	srli	a3, a0, 16
	srli	a4, a0, 8
	sb	a0, 8(a1)
	sb	a4, 9(a1)
	sb	a3, 10(a1)
	sb	a2, 11(a1)
	li	a2, 32
	mv	s1, a1
	mv	a0, s4
	mv	a1, s2
	call	memcpy
	sb	zero, 44(s1)
	sb	zero, 45(s1)
	sb	zero, 46(s1)
	sb	zero, 47(s1)
	srli	a0, s0, 56
	srli	a1, s0, 48
	srli	a2, s0, 40
	srli	a3, s0, 32
	srli	a4, s0, 24
	srli	a5, s0, 16
	sb	a3, 52(s1)
	sb	a2, 53(s1)
	sb	a1, 54(s1)
	sb	a0, 55(s1)
	srli	a0, s0, 8
	sb	s0, 48(s1)
	sb	a0, 49(s1)
	sb	a5, 50(s1)
	sb	a4, 51(s1)
	li	a2, 136
	mv	a0, s7
	mv	a1, s3
	call	memcpy
	li	a0, 0
.Lnoise_BB92_61:
	ld	ra, 472(sp)
	ld	s0, 464(sp)
	ld	s1, 456(sp)
	ld	s2, 448(sp)
	ld	s3, 440(sp)
	ld	s4, 432(sp)
	ld	s5, 424(sp)
	ld	s6, 416(sp)
	ld	s7, 408(sp)
	ld	s8, 400(sp)
	ld	s9, 392(sp)
	ld	s10, 384(sp)
	ld	s11, 376(sp)
	.cfi_restore ra
	.cfi_restore s0
	.cfi_restore s1
	.cfi_restore s2
	.cfi_restore s3
	.cfi_restore s4
	.cfi_restore s5
	.cfi_restore s6
	.cfi_restore s7
	.cfi_restore s8
	.cfi_restore s9
	.cfi_restore s10
	.cfi_restore s11
	addi	sp, sp, 480
	.cfi_def_cfa_offset 0
	ret
.Lnoise_BB92_62:
	.cfi_restore_state
	unimp
.Lnoise_func_end92:
	.size	noise_datagram_open, .Lnoise_func_end92-noise_datagram_open
	.cfi_endproc

	.section	.text.noise_finish_datagrams,"ax",@progbits
	.globl	noise_finish_datagrams
	.p2align	1
	.type	noise_finish_datagrams,@function
noise_finish_datagrams:
	.cfi_startproc
	addi	sp, sp, -480
	.cfi_def_cfa_offset 480
	sd	ra, 472(sp)
	sd	s0, 464(sp)
	sd	s1, 456(sp)
	sd	s2, 448(sp)
	sd	s3, 440(sp)
	sd	s4, 432(sp)
	sd	s5, 424(sp)
	sd	s6, 416(sp)
	sd	s7, 408(sp)
	sd	s8, 400(sp)
	sd	s9, 392(sp)
	sd	s10, 384(sp)
	sd	s11, 376(sp)
	.cfi_offset ra, -8
	.cfi_offset s0, -16
	.cfi_offset s1, -24
	.cfi_offset s2, -32
	.cfi_offset s3, -40
	.cfi_offset s4, -48
	.cfi_offset s5, -56
	.cfi_offset s6, -64
	.cfi_offset s7, -72
	.cfi_offset s8, -80
	.cfi_offset s9, -88
	.cfi_offset s10, -96
	.cfi_offset s11, -104
	.cfi_remember_state
	mv	s10, a3
	mv	s0, a2
	sext.w	a2, a1
	li	a3, 64
	mv	a1, a0
	beq	a2, a3, .Lnoise_BB93_6
	li	a0, 1024
	beq	a2, a0, .Lnoise_BB93_4
	li	a0, 256
	bne	a2, a0, .Lnoise_BB93_9
	li	s1, 1
	addi	a0, sp, 136
	call	noise_noise_c_split_finished
	lbu	a0, 136(sp)
	bnez	a0, .Lnoise_BB93_5
	j	.Lnoise_BB93_7
.Lnoise_BB93_4:
	li	s1, 2
	addi	a0, sp, 136
	call	noise_noise_c_split_finished
	lbu	a0, 136(sp)
	beqz	a0, .Lnoise_BB93_7
.Lnoise_BB93_5:
	lw	a0, 140(sp)
	j	.Lnoise_BB93_13
.Lnoise_BB93_6:
	li	s1, 0
	addi	a0, sp, 136
	call	noise_noise_c_split_finished
	lbu	a0, 136(sp)
	bnez	a0, .Lnoise_BB93_5
.Lnoise_BB93_7:
	sd	s1, 96(sp)
	sd	s0, 112(sp)
	lbu	a0, 144(sp)
	lbu	a1, 216(sp)
	sd	a1, 128(sp)
	lbu	a1, 264(sp)
	sd	a1, 120(sp)
	addi	a3, sp, 217
	addi	a2, sp, 265
	sd	a0, 104(sp)
	beqz	a0, .Lnoise_BB93_10
	lbu	a6, 0(a2)
	lbu	t0, 1(a2)
	lbu	t1, 2(a2)
	lbu	t3, 3(a2)
	lbu	t2, 4(a2)
	lbu	a0, 5(a2)
	lbu	s0, 6(a2)
	lbu	a1, 7(a2)
	lbu	a7, 8(a2)
	lbu	t4, 9(a2)
	lbu	t5, 10(a2)
	lbu	t6, 11(a2)
	lbu	s3, 12(a2)
	lbu	ra, 13(a2)
	lbu	s4, 14(a2)
	lbu	s5, 15(a2)
	lbu	s6, 16(a2)
	lbu	s7, 17(a2)
	lbu	s11, 18(a2)
	lbu	a5, 19(a2)
	lbu	s2, 20(a2)
	lbu	s1, 21(a2)
	lbu	s8, 22(a2)
	lbu	s9, 23(a2)
	slli	t0, t0, 8
	slli	t1, t1, 16
	slli	t3, t3, 24
	slli	a0, a0, 8
	slli	s0, s0, 16
	slli	a1, a1, 24
	or	a4, t0, a6
	sd	a4, 88(sp)
	or	a4, t3, t1
	sd	a4, 80(sp)
	or	a0, a0, t2
	sd	a0, 72(sp)
	or	a1, a1, s0
	sd	a1, 64(sp)
	lbu	a6, 24(a2)
	lbu	t0, 25(a2)
	lbu	s0, 26(a2)
	lbu	a4, 27(a2)
	slli	t4, t4, 8
	slli	t5, t5, 16
	slli	t6, t6, 24
	slli	ra, ra, 8
	or	a0, t4, a7
	sd	a0, 56(sp)
	or	a0, t6, t5
	sd	a0, 48(sp)
	or	a0, ra, s3
	sd	a0, 40(sp)
	lbu	ra, 28(a2)
	lbu	a1, 29(a2)
	lbu	a7, 30(a2)
	lbu	s3, 31(a2)
	slli	s4, s4, 16
	slli	s5, s5, 24
	slli	s7, s7, 8
	slli	s11, s11, 16
	slli	a5, a5, 24
	slli	s1, s1, 8
	or	s5, s5, s4
	or	a0, s7, s6
	sd	a0, 32(sp)
	or	a0, a5, s11
	sd	a0, 24(sp)
	or	a0, s1, s2
	sd	a0, 16(sp)
	lbu	a5, 0(a3)
	lbu	s1, 1(a3)
	lbu	a2, 2(a3)
	lbu	a0, 3(a3)
	slli	s8, s8, 16
	slli	s9, s9, 24
	slli	t0, t0, 8
	slli	s0, s0, 16
	slli	a4, a4, 24
	slli	a1, a1, 8
	or	s6, s9, s8
	or	s7, t0, a6
	or	s11, a4, s0
	or	a1, a1, ra
	sd	a1, 8(sp)
	lbu	a1, 4(a3)
	lbu	a4, 5(a3)
	lbu	a6, 6(a3)
	lbu	s0, 7(a3)
	slli	a7, a7, 16
	slli	s3, s3, 24
	slli	s1, s1, 8
	slli	a2, a2, 16
	slli	a0, a0, 24
	slli	a4, a4, 8
	or	t5, s3, a7
	or	ra, s1, a5
	or	t4, a0, a2
	or	s9, a4, a1
	lbu	a0, 8(a3)
	lbu	a1, 9(a3)
	lbu	a2, 10(a3)
	lbu	s1, 11(a3)
	slli	a6, a6, 16
	slli	s0, s0, 24
	slli	a1, a1, 8
	slli	a2, a2, 16
	slli	s1, s1, 24
	or	t2, s0, a6
	or	s8, a1, a0
	or	t1, s1, a2
	lbu	a0, 13(a3)
	lbu	a2, 12(a3)
	lbu	s1, 14(a3)
	lbu	s0, 15(a3)
	slli	a0, a0, 8
	or	s3, a0, a2
	slli	s1, s1, 16
	slli	s0, s0, 24
	or	a7, s0, s1
	lbu	a0, 17(a3)
	lbu	s0, 16(a3)
	lbu	s1, 18(a3)
	lbu	s2, 19(a3)
	slli	a0, a0, 8
	or	t0, a0, s0
	slli	s1, s1, 16
	slli	a0, s2, 24
	or	s2, a0, s1
	lbu	s1, 21(a3)
	lbu	a1, 20(a3)
	mv	t6, s10
	lbu	s10, 22(a3)
	lbu	a0, 23(a3)
	slli	s1, s1, 8
	or	t3, s1, a1
	slli	s10, s10, 16
	slli	a0, a0, 24
	or	s10, a0, s10
	lbu	s1, 25(a3)
	lbu	a2, 24(a3)
	lbu	a1, 26(a3)
	lbu	a0, 27(a3)
	slli	s1, s1, 8
	or	a6, s1, a2
	slli	a1, a1, 16
	slli	a0, a0, 24
	or	a4, a0, a1
	lbu	a1, 29(a3)
	lbu	s1, 28(a3)
	lbu	a0, 30(a3)
	lbu	a3, 31(a3)
	slli	a1, a1, 8
	or	a2, a1, s1
	slli	a0, a0, 16
	slli	a3, a3, 24
	or	a0, a0, a3
	ld	a1, 88(sp)
	ld	a3, 80(sp)
	or	a3, a3, a1
	ld	a1, 72(sp)
	ld	s1, 64(sp)
	or	s1, s1, a1
	ld	a1, 56(sp)
	ld	s4, 48(sp)
	or	a1, s4, a1
	ld	s0, 40(sp)
	or	s5, s5, s0
	ld	s0, 32(sp)
	ld	a5, 24(sp)
	or	s4, a5, s0
	ld	a5, 16(sp)
	or	s6, s6, a5
	or	s7, s11, s7
	ld	a5, 8(sp)
	or	t5, t5, a5
	or	t4, t4, ra
	or	t2, t2, s9
	or	t1, t1, s8
	or	a7, a7, s3
	or	t0, s2, t0
	or	s0, s10, t3
	mv	s10, t6
	or	a6, a4, a6
	or	a0, a0, a2
	slli	s1, s1, 32
	or	t3, s1, a3
	slli	s5, s5, 32
	or	a1, s5, a1
	slli	s6, s6, 32
	or	a2, s6, s4
	slli	t5, t5, 32
	or	a5, t5, s7
	slli	t2, t2, 32
	or	s1, t2, t4
	slli	a7, a7, 32
	or	a4, a7, t1
	slli	s0, s0, 32
	or	a3, s0, t0
	slli	a0, a0, 32
	or	a0, a0, a6
	ld	s0, 304(sp)
	sd	t3, 344(sp)
	sd	a1, 352(sp)
	sd	a2, 360(sp)
	sd	a5, 368(sp)
	sd	s1, 312(sp)
	sd	a4, 320(sp)
	sd	a3, 328(sp)
	sd	a0, 336(sp)
	ld	a0, 120(sp)
	ld	s3, 128(sp)
	li	s7, 1
	beq	a0, s7, .Lnoise_BB93_11
	j	.Lnoise_BB93_14
.Lnoise_BB93_9:
	li	a0, 25
	j	.Lnoise_BB93_13
.Lnoise_BB93_10:
	lbu	t0, 0(a3)
	lbu	t1, 1(a3)
	lbu	t2, 2(a3)
	lbu	s11, 3(a3)
	lbu	s1, 4(a3)
	lbu	a5, 5(a3)
	lbu	t3, 6(a3)
	lbu	t4, 7(a3)
	lbu	t5, 8(a3)
	lbu	a7, 9(a3)
	lbu	ra, 10(a3)
	lbu	a4, 11(a3)
	lbu	s3, 12(a3)
	lbu	t6, 13(a3)
	lbu	s4, 14(a3)
	lbu	s5, 15(a3)
	lbu	s6, 16(a3)
	lbu	a6, 17(a3)
	lbu	s2, 18(a3)
	lbu	s0, 19(a3)
	lbu	a0, 20(a3)
	sd	a0, 16(sp)
	lbu	s7, 21(a3)
	lbu	s8, 22(a3)
	lbu	s9, 23(a3)
	slli	t1, t1, 8
	slli	t2, t2, 16
	slli	s11, s11, 24
	slli	a5, a5, 8
	or	a0, t1, t0
	sd	a0, 88(sp)
	or	a0, s11, t2
	sd	a0, 80(sp)
	or	a5, a5, s1
	sd	a5, 72(sp)
	lbu	t1, 24(a3)
	lbu	s11, 25(a3)
	lbu	a5, 26(a3)
	lbu	s1, 27(a3)
	slli	t3, t3, 16
	slli	t4, t4, 24
	slli	a0, a7, 8
	slli	ra, ra, 16
	slli	a4, a4, 24
	or	a1, t4, t3
	sd	a1, 64(sp)
	or	a0, a0, t5
	sd	a0, 56(sp)
	or	a0, a4, ra
	sd	a0, 48(sp)
	lbu	ra, 28(a3)
	lbu	t0, 29(a3)
	lbu	a7, 30(a3)
	lbu	a4, 31(a3)
	slli	t6, t6, 8
	slli	s4, s4, 16
	slli	s5, s5, 24
	slli	a6, a6, 8
	slli	a1, s2, 16
	slli	s0, s0, 24
	or	a0, t6, s3
	sd	a0, 40(sp)
	or	a0, s5, s4
	sd	a0, 32(sp)
	or	a0, a6, s6
	sd	a0, 24(sp)
	or	s6, s0, a1
	lbu	a6, 0(a2)
	lbu	s0, 1(a2)
	lbu	a1, 2(a2)
	lbu	a0, 3(a2)
	slli	s7, s7, 8
	slli	s8, s8, 16
	slli	s9, s9, 24
	slli	s11, s11, 8
	slli	a5, a5, 16
	slli	s1, s1, 24
	ld	a3, 16(sp)
	or	a3, s7, a3
	sd	a3, 16(sp)
	or	s7, s9, s8
	or	a3, s11, t1
	sd	a3, 8(sp)
	or	s8, s1, a5
	lbu	t1, 4(a2)
	lbu	s1, 5(a2)
	lbu	a3, 6(a2)
	lbu	a5, 7(a2)
	slli	t0, t0, 8
	slli	a7, a7, 16
	slli	a4, a4, 24
	slli	s0, s0, 8
	slli	a1, a1, 16
	slli	a0, a0, 24
	or	s11, t0, ra
	or	s4, a4, a7
	or	ra, s0, a6
	or	t6, a0, a1
	lbu	a0, 8(a2)
	lbu	a1, 9(a2)
	lbu	a4, 10(a2)
	lbu	s0, 11(a2)
	slli	s1, s1, 8
	slli	a3, a3, 16
	slli	a5, a5, 24
	slli	a1, a1, 8
	slli	a4, a4, 16
	slli	s0, s0, 24
	or	s9, s1, t1
	or	t3, a5, a3
	or	s2, a1, a0
	or	t2, s0, a4
	lbu	a0, 13(a2)
	lbu	a3, 14(a2)
	lbu	a4, 15(a2)
	lbu	s0, 12(a2)
	slli	a0, a0, 8
	slli	a3, a3, 16
	slli	a4, a4, 24
	or	t5, a0, s0
	or	t4, a4, a3
	lbu	a0, 17(a2)
	lbu	a4, 16(a2)
	lbu	s1, 18(a2)
	lbu	s3, 19(a2)
	slli	a0, a0, 8
	or	t0, a0, a4
	slli	s1, s1, 16
	slli	a0, s3, 24
	or	s3, a0, s1
	lbu	s1, 21(a2)
	lbu	a3, 20(a2)
	lbu	a1, 22(a2)
	lbu	a0, 23(a2)
	slli	s1, s1, 8
	or	t1, s1, a3
	slli	a1, a1, 16
	slli	a0, a0, 24
	or	a6, a0, a1
	lbu	a3, 25(a2)
	lbu	s1, 24(a2)
	lbu	a1, 26(a2)
	lbu	a0, 27(a2)
	slli	a3, a3, 8
	or	a7, a3, s1
	slli	a1, a1, 16
	slli	a0, a0, 24
	or	a4, a0, a1
	lbu	a1, 29(a2)
	lbu	s1, 28(a2)
	lbu	a0, 30(a2)
	lbu	a2, 31(a2)
	slli	a1, a1, 8
	or	a3, a1, s1
	slli	a0, a0, 16
	slli	a2, a2, 24
	or	a0, a0, a2
	ld	a1, 88(sp)
	ld	a2, 80(sp)
	or	a2, a2, a1
	ld	a1, 72(sp)
	ld	s1, 64(sp)
	or	s1, s1, a1
	ld	a1, 56(sp)
	ld	s5, 48(sp)
	or	a1, s5, a1
	ld	s0, 40(sp)
	ld	a5, 32(sp)
	or	s5, a5, s0
	ld	a5, 24(sp)
	or	s6, s6, a5
	ld	a5, 16(sp)
	or	s7, s7, a5
	ld	a5, 8(sp)
	or	s8, s8, a5
	or	s4, s4, s11
	or	t6, t6, ra
	or	t3, t3, s9
	or	t2, t2, s2
	or	s0, t4, t5
	or	t0, s3, t0
	or	a6, a6, t1
	or	a7, a4, a7
	or	a0, a0, a3
	slli	s1, s1, 32
	or	t1, s1, a2
	slli	s5, s5, 32
	or	a1, s5, a1
	slli	s7, s7, 32
	or	a3, s7, s6
	slli	s4, s4, 32
	or	a5, s4, s8
	slli	t3, t3, 32
	or	s1, t3, t6
	slli	s0, s0, 32
	or	a4, s0, t2
	slli	a6, a6, 32
	or	a2, a6, t0
	slli	a0, a0, 32
	or	a0, a0, a7
	ld	s0, 256(sp)
	sd	t1, 344(sp)
	sd	a1, 352(sp)
	sd	a3, 360(sp)
	sd	a5, 368(sp)
	sd	s1, 312(sp)
	sd	a4, 320(sp)
	sd	a2, 328(sp)
	sd	a0, 336(sp)
	ld	a0, 128(sp)
	ld	s3, 120(sp)
	li	s7, 1
	bne	a0, s7, .Lnoise_BB93_14
.Lnoise_BB93_11:
	lbu	a1, 145(sp)
	ld	a0, 104(sp)
	snez	s6, a0
	li	s4, 78
	li	s5, 111
	li	a0, 6
	addi	s6, s6, 1
	ld	s1, 112(sp)
	sb	s7, 0(s1)
	sb	a0, 1(s1)
	sb	s5, 2(s1)
	sb	s4, 3(s1)
	andi	s2, a1, 1
	sb	s6, 4(s1)
	sb	s2, 5(s1)
	addi	a0, s1, 6
	addi	a1, sp, 344
	li	a2, 32
	call	memcpy
	srli	a0, s0, 56
	srli	a1, s0, 48
	srli	a2, s0, 40
	srli	a3, s0, 32
	srli	a4, s0, 24
	sb	a1, 46(s1)
	sb	a0, 47(s1)
	srli	a0, s0, 16
	sb	a0, 42(s1)
	sb	a4, 43(s1)
	sb	a3, 44(s1)
	sb	a2, 45(s1)
	srli	a0, s0, 8
	sb	zero, 38(s1)
	sb	zero, 39(s1)
	sb	s0, 40(s1)
	sb	a0, 41(s1)
	bne	s3, s7, .Lnoise_BB93_14
	ld	a0, 96(sp)
	slli	a0, a0, 2
.Lnoise_pcrel_hi74:
	auipc	a1, %pcrel_hi(.Lnoise_switch.table.noise_finish_datagrams)
	li	a2, 7
	addi	a1, a1, %pcrel_lo(.Lnoise_pcrel_hi74)
	add	a0, a0, a1
	li	a1, 1
	lw	a0, 0(a0)
	sb	a1, 0(s10)
	sb	a2, 1(s10)
	sb	s5, 2(s10)
	sb	s4, 3(s10)
	sb	s6, 4(s10)
	sb	s2, 5(s10)
	sb	zero, 6(s10)
	sb	zero, 7(s10)
	srli	a1, a0, 24
	srli	a2, a0, 16
	srli	a3, a0, 8
	sb	a0, 8(s10)
	sb	a3, 9(s10)
	sb	a2, 10(s10)
	sb	a1, 11(s10)
	addi	a0, s10, 12
	addi	a1, sp, 312
	li	a2, 32
	call	memcpy
	addi	a0, s10, 44
	li	a2, 148
	li	a1, 0
	call	memset
	li	a0, 0
.Lnoise_BB93_13:
	ld	ra, 472(sp)
	ld	s0, 464(sp)
	ld	s1, 456(sp)
	ld	s2, 448(sp)
	ld	s3, 440(sp)
	ld	s4, 432(sp)
	ld	s5, 424(sp)
	ld	s6, 416(sp)
	ld	s7, 408(sp)
	ld	s8, 400(sp)
	ld	s9, 392(sp)
	ld	s10, 384(sp)
	ld	s11, 376(sp)
	.cfi_restore ra
	.cfi_restore s0
	.cfi_restore s1
	.cfi_restore s2
	.cfi_restore s3
	.cfi_restore s4
	.cfi_restore s5
	.cfi_restore s6
	.cfi_restore s7
	.cfi_restore s8
	.cfi_restore s9
	.cfi_restore s10
	.cfi_restore s11
	addi	sp, sp, 480
	.cfi_def_cfa_offset 0
	ret
.Lnoise_BB93_14:
	.cfi_restore_state
	unimp
.Lnoise_func_end93:
	.size	noise_finish_datagrams, .Lnoise_func_end93-noise_finish_datagrams
	.cfi_endproc

	.section	.text.noise_write,"ax",@progbits
	.globl	noise_write
	.p2align	1
	.type	noise_write,@function
noise_write:
	.cfi_startproc
	addi	sp, sp, -496
	.cfi_def_cfa_offset 496
	sd	ra, 488(sp)
	sd	s0, 480(sp)
	sd	s1, 472(sp)
	sd	s2, 464(sp)
	sd	s3, 456(sp)
	sd	s4, 448(sp)
	sd	s5, 440(sp)
	sd	s6, 432(sp)
	sd	s7, 424(sp)
	sd	s8, 416(sp)
	sd	s9, 408(sp)
	sd	s10, 400(sp)
	sd	s11, 392(sp)
	.cfi_offset ra, -8
	.cfi_offset s0, -16
	.cfi_offset s1, -24
	.cfi_offset s2, -32
	.cfi_offset s3, -40
	.cfi_offset s4, -48
	.cfi_offset s5, -56
	.cfi_offset s6, -64
	.cfi_offset s7, -72
	.cfi_offset s8, -80
	.cfi_offset s9, -88
	.cfi_offset s10, -96
	.cfi_offset s11, -104
	addi	sp, sp, -1936
	.cfi_def_cfa_offset 2432
	.cfi_remember_state
	mv	s6, a5
	mv	s9, a4
	mv	s0, a3
	mv	s4, a2
	mv	s5, a1
	mv	s1, a0
	sd	zero, 920(sp)
	sd	zero, 928(sp)
	sw	zero, 936(sp)
	sd	zero, 32(sp)
	sd	zero, 40(sp)
	sw	zero, 48(sp)
	addi	a0, sp, 1224
	li	a2, 872
	li	a1, 0
	call	memset
	lw	a0, 0(s1)
	lui	a1, 321264
	addi	a1, a1, 257
	bne	a0, a1, .Lnoise_BB94_8
	lhu	a2, 420(s1)
	li	a0, 416
	bltu	a0, a2, .Lnoise_BB94_8
	lbu	a0, 846(s1)
	li	a1, 8
	bltu	a1, a0, .Lnoise_BB94_8
	lbu	a0, 557(s1)
	li	a1, 9
	bltu	a1, a0, .Lnoise_BB94_8
	addi	a1, s1, 4
	addi	a0, sp, 944
	call	noise_noise_c_patterns_pattern_of
	lbu	a0, 944(sp)
	bnez	a0, .Lnoise_BB94_8
	addi	a2, sp, 952
	addi	a0, sp, 1224
	mv	a1, s1
	call	noise_noise_c_from_c_restored
	lbu	s2, 1224(sp)
	addi	a1, sp, 1232
	addi	a0, sp, 56
	li	a2, 864
	call	memcpy
	li	a0, 1
	bne	s2, a0, .Lnoise_BB94_8
	addi	a0, sp, 1224
	addi	a1, sp, 56
	li	a2, 864
	call	memcpy
	lbu	a0, 1913(sp)
	beqz	a0, .Lnoise_BB94_10
	li	a0, 13
	j	.Lnoise_BB94_9
.Lnoise_BB94_8:
	li	a0, 23
.Lnoise_BB94_9:
	addi	sp, sp, 1936
	.cfi_def_cfa_offset 496
	ld	ra, 488(sp)
	ld	s0, 480(sp)
	ld	s1, 472(sp)
	ld	s2, 464(sp)
	ld	s3, 456(sp)
	ld	s4, 448(sp)
	ld	s5, 440(sp)
	ld	s6, 432(sp)
	ld	s7, 424(sp)
	ld	s8, 416(sp)
	ld	s9, 408(sp)
	ld	s10, 400(sp)
	ld	s11, 392(sp)
	.cfi_restore ra
	.cfi_restore s0
	.cfi_restore s1
	.cfi_restore s2
	.cfi_restore s3
	.cfi_restore s4
	.cfi_restore s5
	.cfi_restore s6
	.cfi_restore s7
	.cfi_restore s8
	.cfi_restore s9
	.cfi_restore s10
	.cfi_restore s11
	addi	sp, sp, 496
	.cfi_def_cfa_offset 0
	ret
.Lnoise_BB94_10:
	.cfi_restore_state
	lbu	a0, 1912(sp)
	ld	a1, 1488(sp)
	bne	a1, a0, .Lnoise_BB94_12
	li	a0, 12
	j	.Lnoise_BB94_9
.Lnoise_BB94_12:
	lbu	a1, 1528(sp)
	seqz	a1, a1
	andi	a0, a0, 1
	beq	a1, a0, .Lnoise_BB94_15
	addi	s10, sp, 1960
	lhu	a0, 8(s10)
	lui	a1, 16
	addi	a1, a1, -1
	xor	a1, a1, a0
	bgeu	a1, s4, .Lnoise_BB94_16
	li	a0, 11
	j	.Lnoise_BB94_9
.Lnoise_BB94_15:
	li	a0, 10
	j	.Lnoise_BB94_9
.Lnoise_BB94_16:
	add	a0, a0, s4
	bgeu	s9, a0, .Lnoise_BB94_18
	sd	a0, 8(s6)
	li	a0, 18
	j	.Lnoise_BB94_9
.Lnoise_BB94_18:
	ld	a0, 1896(sp)
	ld	s8, 1904(sp)
	ld	s7, 0(s10)
	addi	s2, sp, 1920
	sub	s3, a0, s8
	mv	a0, s2
	mv	a1, s7
	mv	a2, s3
	call	noise_noise_handshake_layout_psk_after
	zext.b	a0, a0
	beqz	a0, .Lnoise_BB94_21
	addi	a0, a0, -1
	slli	s8, s8, 5
	addi	a2, sp, 1224
	add	s8, s8, a2
	addi	a4, sp, 1536
	snez	a0, a0
	addi	a0, a0, -1
	and	a0, a0, a1
	addi	a2, sp, 1496
	sh	zero, 976(sp)
	addi	a3, s8, 384
	zext.b	a6, a0
	sd	zero, 944(sp)
	sd	zero, 952(sp)
	sd	zero, 960(sp)
	sd	zero, 968(sp)
	addi	a0, sp, 944
	mv	a1, a4
	mv	a4, s3
	mv	a5, s2
	call	noise_noise_handshake_writer_write_lacking_9bbb2dae5a99aff0
	lbu	t1, 944(sp)
	lbu	a7, 945(sp)
	lhu	a6, 946(sp)
	lh	t0, 948(sp)
	lhu	a0, 974(sp)
	lh	a4, 976(sp)
	lhu	a5, 958(sp)
	lhu	s1, 960(sp)
	lhu	s0, 962(sp)
	lhu	a1, 964(sp)
	slli	a4, a4, 16
	slli	s1, s1, 16
	or	a4, a4, a0
	or	a5, a5, s1
	lhu	a0, 966(sp)
	lhu	a3, 968(sp)
	lhu	s1, 970(sp)
	lhu	a2, 972(sp)
	slli	s0, s0, 32
	slli	a1, a1, 48
	slli	a3, a3, 16
	slli	s1, s1, 32
	slli	a2, a2, 48
	or	a1, a1, s0
	or	a0, a0, a3
	or	a2, a2, s1
	or	a1, a1, a5
	lhu	a3, 950(sp)
	lhu	s0, 952(sp)
	lhu	a5, 954(sp)
	lhu	s1, 956(sp)
	or	a2, a2, a0
	li	a0, 1
	sd	a1, 232(s10)
	sd	a2, 240(s10)
	sw	a4, 248(s10)
	bne	t1, a0, .Lnoise_BB94_24
	slli	t0, t0, 16
	slli	s0, s0, 16
	slli	a5, a5, 32
	slli	s1, s1, 48
	or	a1, t0, a6
	or	a3, a3, s0
	ld	a0, 232(s10)
	ld	a4, 240(s10)
	lw	s0, 248(s10)
	or	a2, s1, a5
	or	a2, a2, a3
	sd	a0, 32(sp)
	sd	a4, 40(sp)
	sw	s0, 48(sp)
	sd	a0, 920(sp)
	j	.Lnoise_BB94_23
.Lnoise_BB94_21:
	sd	s1, 24(sp)
	sh	zero, 976(sp)
	sd	zero, 944(sp)
	sd	zero, 952(sp)
	sd	zero, 960(sp)
	sd	zero, 968(sp)
	addi	s11, sp, 1608
	slli	a3, s8, 5
	addi	a1, sp, 1536
	add	a3, a3, s11
	addi	s8, sp, 1496
	addi	a0, sp, 944
	mv	a2, s8
	mv	a4, s3
	mv	a5, s2
	mv	a6, s7
	call	noise_noise_handshake_writer_write_lacking_9bbb2dae5a99aff0
	lbu	t1, 944(sp)
	lbu	a7, 945(sp)
	lhu	a6, 946(sp)
	lh	t0, 948(sp)
	lhu	a0, 974(sp)
	lh	a1, 976(sp)
	lhu	a4, 958(sp)
	lhu	a5, 960(sp)
	lhu	s1, 962(sp)
	lhu	a3, 964(sp)
	slli	a1, a1, 16
	slli	a5, a5, 16
	or	t2, a1, a0
	or	a4, a4, a5
	lhu	a1, 966(sp)
	lhu	a5, 968(sp)
	lhu	a2, 970(sp)
	lhu	a0, 972(sp)
	slli	s1, s1, 32
	slli	a3, a3, 48
	slli	a5, a5, 16
	slli	a2, a2, 32
	slli	a0, a0, 48
	or	a3, a3, s1
	or	a1, a1, a5
	or	a2, a2, a0
	or	a3, a3, a4
	lhu	a4, 950(sp)
	lhu	a0, 952(sp)
	lhu	a5, 954(sp)
	lhu	s1, 956(sp)
	or	a1, a1, a2
	li	a2, 1
	sd	a3, 160(s10)
	sd	a1, 168(s10)
	sw	t2, 176(s10)
	bne	t1, a2, .Lnoise_BB94_26
	slli	t0, t0, 16
	slli	a0, a0, 16
	slli	a5, a5, 32
	slli	s1, s1, 48
	or	a1, t0, a6
	or	a0, a0, a4
	ld	a3, 160(s10)
	ld	a4, 168(s10)
	lw	s0, 176(s10)
	or	a2, s1, a5
	or	a2, a2, a0
	sd	a3, 32(sp)
	sd	a4, 40(sp)
	sw	s0, 48(sp)
	sd	a3, 920(sp)
.Lnoise_BB94_23:
	sd	a4, 928(sp)
	sw	s0, 936(sp)
	srli	a6, a1, 24
	srli	a3, a1, 16
	srli	a4, a1, 8
	srli	a5, a2, 56
	srli	s1, a2, 48
	srli	s0, a2, 40
	srli	a0, a2, 32
	sb	a7, 17(s6)
	sb	a1, 18(s6)
	sb	a4, 19(s6)
	sb	a3, 20(s6)
	srli	a1, a2, 24
	sb	a5, 29(s6)
	srli	a3, a2, 16
	sb	a1, 25(s6)
	sb	a0, 26(s6)
	sb	s0, 27(s6)
	sb	s1, 28(s6)
	srli	a0, a2, 8
	sb	a6, 21(s6)
	sb	a2, 22(s6)
	sb	a0, 23(s6)
	sb	a3, 24(s6)
	addi	a0, s6, 30
	addi	a1, sp, 920
	li	a2, 20
	call	memcpy
	li	a0, 20
	j	.Lnoise_BB94_9
.Lnoise_BB94_24:
	lbu	s2, 1569(sp)
	bne	s2, a0, .Lnoise_BB94_28
	lhu	a6, 1570(sp)
	lh	t0, 1572(sp)
	lhu	a7, 1574(sp)
	lhu	a0, 1576(sp)
	lhu	t1, 1594(sp)
	lhu	t2, 1596(sp)
	lhu	t3, 1598(sp)
	lh	t4, 1600(sp)
	lhu	t5, 1586(sp)
	lhu	t6, 1588(sp)
	lhu	a4, 1590(sp)
	lhu	a5, 1592(sp)
	slli	t0, t0, 16
	slli	s0, a0, 16
	or	a0, t0, a6
	or	s0, s0, a7
	lhu	s1, 1578(sp)
	lhu	a1, 1580(sp)
	lhu	a2, 1582(sp)
	lhu	a3, 1584(sp)
	slli	s1, s1, 32
	slli	a1, a1, 48
	or	a1, a1, s1
	slli	t4, t4, 16
	or	s1, t4, t3
	slli	a5, a5, 16
	or	a4, a4, a5
	slli	t1, t1, 32
	slli	t2, t2, 48
	or	a5, t2, t1
	slli	a3, a3, 16
	or	a2, a2, a3
	slli	t5, t5, 32
	slli	t6, t6, 48
	or	a3, t6, t5
	or	a1, a1, s0
	or	a4, a4, a5
	or	a2, a2, a3
	sd	a2, 944(sp)
	sd	a4, 952(sp)
	sw	s1, 960(sp)
	j	.Lnoise_BB94_29
.Lnoise_BB94_26:
	seqz	a7, s0
	ld	a6, 1896(sp)
	ld	a2, 1904(sp)
	ld	t1, 16(s10)
	ld	a4, 24(s10)
	ld	a5, 32(s10)
	ld	s1, 40(s10)
	ld	t0, 48(s10)
	ld	t2, 56(s10)
	ld	a0, 64(s10)
	ld	a3, 72(s10)
	slli	a7, a7, 12
	add	s3, s0, a7
	addi	a1, sp, 2041
	sd	t1, 232(s10)
	sd	a4, 240(s10)
	sd	a5, 248(s10)
	sd	s1, 256(s10)
	lbu	a4, 80(s10)
	ld	s0, 120(s10)
	sub	s1, a6, a2
	slli	a2, a2, 5
	sd	t0, 264(s10)
	sd	t2, 272(s10)
	sd	a0, 280(s10)
	sd	a3, 288(s10)
	sb	a4, 1008(sp)
	add	s2, s11, a2
	ld	a0, 232(s10)
	ld	a4, 240(s10)
	ld	a2, 248(s10)
	ld	a3, 256(s10)
	sd	a0, 944(sp)
	sd	a4, 952(sp)
	sd	a2, 960(sp)
	sd	a3, 968(sp)
	ld	a0, 264(s10)
	ld	a4, 272(s10)
	ld	a2, 280(s10)
	ld	a3, 288(s10)
	sd	a0, 976(sp)
	sd	a4, 984(sp)
	sd	a2, 992(sp)
	sd	a3, 1000(sp)
	addi	a0, sp, 1009
	li	a2, 32
	call	memcpy
	sb	zero, 1041(sp)
	sb	zero, 1042(sp)
	sb	zero, 1043(sp)
	sb	zero, 1044(sp)
	lbu	s11, 1536(sp)
	sb	zero, 1045(sp)
	sb	zero, 1046(sp)
	sb	zero, 1047(sp)
	sd	s0, 1048(sp)
	addi	s7, sp, 1537
	addi	a0, sp, 2047
	addi	a0, a0, 74
	li	a2, 32
	mv	a1, s7
	call	memcpy
	lbu	s0, 1569(sp)
	addi	a1, sp, 1570
	addi	a0, sp, 2047
	addi	a0, a0, 107
	li	a2, 32
	call	memcpy
	ld	a6, 0(s10)
	sd	s11, 8(sp)
	sb	s11, 160(s10)
	sd	s0, 16(sp)
	sb	s0, 193(s10)
	addi	a0, sp, 944
	addi	a1, sp, 2047
	addi	a1, a1, 73
	mv	a2, s8
	mv	a3, s2
	mv	a4, s1
	addi	a5, sp, 1920
	mv	a7, s3
	mv	t3, s9
	call	noise_noise_handshake_writer_write_tokens_3dfcfe118667ed30
	zext.b	a0, a0
	beqz	a0, .Lnoise_BB94_30
	li	a0, 14
	j	.Lnoise_BB94_9
.Lnoise_BB94_28:
	li	a1, 0
	li	a0, 0
	sd	zero, 944(sp)
	sd	zero, 952(sp)
	sw	zero, 960(sp)
.Lnoise_BB94_29:
	srli	a6, a0, 24
	srli	a3, a0, 16
	srli	a4, a0, 8
	srli	a7, a1, 56
	srli	s1, a1, 48
	srli	s0, a1, 40
	srli	a2, a1, 32
	srli	a5, a1, 24
	sb	a0, 18(s6)
	sb	a4, 19(s6)
	sb	a3, 20(s6)
	sb	a6, 21(s6)
	srli	a0, a1, 16
	sb	a2, 26(s6)
	sb	s0, 27(s6)
	sb	s1, 28(s6)
	sb	a7, 29(s6)
	srli	a2, a1, 8
	sb	a1, 22(s6)
	sb	a2, 23(s6)
	sb	a0, 24(s6)
	sb	a5, 25(s6)
	addi	a0, s6, 30
	addi	a1, sp, 944
	li	a2, 20
	call	memcpy
	sb	s2, 50(s6)
	li	a0, 40
	j	.Lnoise_BB94_9
.Lnoise_BB94_30:
	mv	s8, a1
	seqz	a0, s5
	slli	a0, a0, 12
	add	a1, s5, a0
	add	s0, s3, s8
	sub	a2, s0, a1
	addi	s2, sp, 1008
	bgeu	a2, s4, .Lnoise_BB94_33
	add	a0, a0, s4
	add	s5, s5, a0
	mv	a0, s0
.Lnoise_BB94_32:
	lbu	a2, 0(a1)
	addi	a1, a1, 1
	sb	a2, 0(a0)
	addi	a0, a0, 1
	bne	a1, s5, .Lnoise_BB94_32
	j	.Lnoise_BB94_34
.Lnoise_BB94_33:
	mv	a0, s0
	mv	a2, s4
	call	memmove
.Lnoise_BB94_34:
	sd	zero, 296(s10)
	sd	zero, 304(s10)
	addi	s5, sp, 976
	addi	a0, sp, 2047
	addi	a0, a0, 209
	li	a3, 32
	mv	a1, s2
	mv	a2, s5
	mv	a4, s0
	mv	a5, s4
	call	noise_noise_state_cipher_CipherState_encrypt
	lbu	a0, 296(s10)
	bnez	a0, .Lnoise_BB94_45
	ld	s1, 304(s10)
	addi	s4, sp, 1976
	addi	a0, sp, 2047
	addi	a0, a0, 225
	mv	a1, s5
	mv	a2, s0
	mv	a3, s1
	call	noise_noise_state_symmetric_hash_of_both
	addi	a1, sp, 2047
	addi	a1, a1, 225
	li	a2, 32
	mv	a0, s5
	call	memcpy
	add	s1, s1, s8
	ld	s0, 1904(sp)
	lbu	a0, 10(s10)
	lbu	s8, 1008(sp)
	lbu	s5, 1912(sp)
	lbu	a2, 1529(sp)
	add	s2, s0, a0
	addi	a0, s8, -1
	addi	s5, s5, 1
	seqz	a3, a0
	sd	s2, 1904(sp)
	sb	s5, 1912(sp)
	addi	a0, sp, 2047
	addi	a0, a0, 225
	addi	a1, sp, 1224
	mv	a4, s5
	call	noise_noise_handshake_layout_lay_next
	ld	a0, 976(sp)
	ld	a1, 984(sp)
	ld	a2, 992(sp)
	ld	a3, 1000(sp)
	sd	a0, 32(s4)
	sd	a1, 40(s4)
	sd	a2, 48(s4)
	sd	a3, 56(s4)
	ld	a0, 944(sp)
	ld	a1, 952(sp)
	ld	a2, 960(sp)
	ld	a3, 968(sp)
	sd	a0, 0(s4)
	sd	a1, 8(s4)
	sd	a2, 16(s4)
	sd	a3, 24(s4)
	li	a2, 47
	addi	a0, sp, 2041
	addi	a1, sp, 1009
	call	memcpy
	li	a2, 32
	mv	a0, s7
	addi	a1, sp, 2047
	addi	a1, a1, 74
	call	memcpy
	li	a2, 32
	addi	a0, sp, 1570
	addi	a1, sp, 2047
	addi	a1, a1, 107
	call	memcpy
	ld	a7, 1896(sp)
	li	a1, 1
	sd	zero, 0(s6)
	sd	s1, 8(s6)
	ld	a0, 8(sp)
	bne	a0, a1, .Lnoise_BB94_37
	lbu	a6, 24(s7)
	lbu	t3, 25(s7)
	lbu	a3, 26(s7)
	lbu	a4, 27(s7)
	lbu	a5, 28(s7)
	lbu	s1, 29(s7)
	lbu	t0, 30(s7)
	lbu	t1, 31(s7)
	lbu	t2, 16(s7)
	lbu	t4, 17(s7)
	lbu	a0, 18(s7)
	lbu	a1, 19(s7)
	lbu	a2, 20(s7)
	lbu	s0, 21(s7)
	lbu	t5, 22(s7)
	lbu	t6, 23(s7)
	slli	t3, t3, 8
	slli	a3, a3, 16
	slli	a4, a4, 24
	slli	s1, s1, 8
	or	a6, t3, a6
	or	t3, a4, a3
	or	s3, s1, a5
	lbu	a3, 8(s7)
	lbu	a4, 9(s7)
	lbu	a5, 10(s7)
	lbu	s1, 11(s7)
	slli	t0, t0, 16
	slli	t1, t1, 24
	slli	t4, t4, 8
	slli	a0, a0, 16
	slli	a1, a1, 24
	slli	s0, s0, 8
	or	t0, t1, t0
	or	t1, t4, t2
	or	t2, a1, a0
	or	t4, s0, a2
	lbu	a2, 12(s7)
	lbu	s0, 13(s7)
	lbu	a0, 14(s7)
	lbu	a1, 15(s7)
	slli	t5, t5, 16
	slli	t6, t6, 24
	slli	a4, a4, 8
	slli	a5, a5, 16
	slli	s1, s1, 24
	slli	s0, s0, 8
	or	t5, t6, t5
	or	t6, a4, a3
	or	s9, s1, a5
	or	s6, s0, a2
	lbu	a4, 0(s7)
	lbu	s1, 1(s7)
	lbu	s0, 2(s7)
	lbu	a3, 3(s7)
	slli	a0, a0, 16
	slli	a1, a1, 24
	slli	s1, s1, 8
	slli	s0, s0, 16
	slli	a3, a3, 24
	or	ra, a1, a0
	or	a4, a4, s1
	or	a3, a3, s0
	lbu	a1, 5(s7)
	lbu	s0, 4(s7)
	lbu	s1, 6(s7)
	lbu	a2, 7(s7)
	slli	a1, a1, 8
	or	s7, a1, s0
	slli	s1, s1, 16
	slli	a2, a2, 24
	or	a2, a2, s1
	or	s1, t3, a6
	or	s0, t0, s3
	or	a5, t2, t1
	or	a0, t5, t4
	or	a6, s9, t6
	or	a1, ra, s6
	or	a3, a3, a4
	or	a2, a2, s7
	slli	s0, s0, 32
	or	s0, s0, s1
	slli	a0, a0, 32
	or	a0, a0, a5
	slli	a1, a1, 32
	or	a1, a1, a6
	slli	a2, a2, 32
	or	a2, a2, a3
	sd	a2, 160(s10)
	sd	a1, 168(s10)
	sd	a0, 176(s10)
	sd	s0, 184(s10)
	j	.Lnoise_BB94_38
.Lnoise_BB94_37:
	sd	zero, 160(s10)
	sd	zero, 168(s10)
	sd	zero, 176(s10)
	sd	zero, 184(s10)
.Lnoise_BB94_38:
	sub	s7, a7, s2
	lbu	s3, 1913(sp)
	ld	s6, 120(s10)
	addi	s2, sp, 2008
	ld	a0, 24(sp)
	ld	a1, 8(sp)
	sb	a1, 491(a0)
	addi	a0, a0, 492
	addi	a1, sp, 2047
	addi	a1, a1, 73
	li	a2, 32
	call	memcpy
	li	a0, 1
	ld	a1, 16(sp)
	bne	a1, a0, .Lnoise_BB94_40
	addi	a1, sp, 1570
	lbu	t0, 24(a1)
	lbu	t2, 25(a1)
	lbu	a2, 26(a1)
	lbu	a3, 27(a1)
	lbu	a4, 28(a1)
	lbu	a5, 29(a1)
	lbu	a6, 30(a1)
	lbu	a7, 31(a1)
	lbu	t1, 16(a1)
	lbu	t3, 17(a1)
	lbu	a0, 18(a1)
	lbu	s0, 19(a1)
	lbu	s9, 20(a1)
	lbu	s1, 21(a1)
	lbu	t4, 22(a1)
	lbu	t5, 23(a1)
	slli	t2, t2, 8
	slli	a2, a2, 16
	slli	a3, a3, 24
	slli	a5, a5, 8
	or	t0, t2, t0
	or	t2, a3, a2
	or	t6, a5, a4
	lbu	s11, 8(a1)
	lbu	a3, 9(a1)
	lbu	a4, 10(a1)
	lbu	a5, 11(a1)
	slli	a6, a6, 16
	slli	a7, a7, 24
	slli	t3, t3, 8
	slli	a0, a0, 16
	slli	s0, s0, 24
	slli	s1, s1, 8
	or	a6, a7, a6
	or	a7, t3, t1
	or	t1, s0, a0
	or	t3, s1, s9
	lbu	a2, 12(a1)
	lbu	s1, 13(a1)
	lbu	a0, 14(a1)
	lbu	s0, 15(a1)
	slli	t4, t4, 16
	slli	t5, t5, 24
	slli	a3, a3, 8
	slli	a4, a4, 16
	slli	a5, a5, 24
	slli	s1, s1, 8
	or	t4, t5, t4
	or	t5, a3, s11
	or	ra, a5, a4
	or	s9, s1, a2
	lbu	a3, 0(a1)
	lbu	a5, 1(a1)
	lbu	s1, 2(a1)
	lbu	a2, 3(a1)
	slli	a0, a0, 16
	slli	s0, s0, 24
	slli	a5, a5, 8
	slli	s1, s1, 16
	slli	a2, a2, 24
	or	a0, a0, s0
	or	a3, a3, a5
	or	a2, a2, s1
	lbu	a5, 5(a1)
	lbu	s0, 4(a1)
	lbu	s1, 6(a1)
	lbu	a1, 7(a1)
	slli	a5, a5, 8
	or	s11, a5, s0
	slli	s1, s1, 16
	slli	a1, a1, 24
	or	a1, a1, s1
	or	s1, t2, t0
	or	s0, a6, t6
	or	a4, t1, a7
	or	a5, t4, t3
	or	a6, ra, t5
	or	a0, a0, s9
	or	a2, a2, a3
	or	a1, a1, s11
	slli	s0, s0, 32
	or	s0, s0, s1
	slli	a5, a5, 32
	or	a4, a4, a5
	slli	a0, a0, 32
	or	a0, a0, a6
	slli	a1, a1, 32
	or	a1, a1, a2
	sd	a1, 944(sp)
	sd	a0, 952(sp)
	sd	a4, 960(sp)
	sd	s0, 968(sp)
	j	.Lnoise_BB94_41
.Lnoise_BB94_40:
	sd	zero, 944(sp)
	sd	zero, 952(sp)
	sd	zero, 960(sp)
	sd	zero, 968(sp)
.Lnoise_BB94_41:
	ld	s0, 24(sp)
	ld	a0, 16(sp)
	sb	a0, 524(s0)
	ld	a0, 944(sp)
	ld	a1, 952(sp)
	ld	a2, 960(sp)
	ld	a3, 968(sp)
	sd	a0, 160(s10)
	sd	a1, 168(s10)
	sd	a2, 176(s10)
	sd	a3, 184(s10)
	addi	a0, s0, 525
	addi	a1, sp, 2047
	addi	a1, a1, 73
	li	a2, 32
	call	memcpy
	sb	s7, 557(s0)
	sb	s3, 423(s0)
	sb	s5, 424(s0)
	addi	a0, s0, 1367
	li	a2, 32
	mv	a1, s4
	call	memcpy
	addi	a0, s0, 1399
	li	a2, 32
	mv	a1, s2
	call	memcpy
	li	a0, 1
	bne	s8, a0, .Lnoise_BB94_43
	addi	a1, sp, 2041
	lbu	t0, 24(a1)
	lbu	t2, 25(a1)
	lbu	a2, 26(a1)
	lbu	a3, 27(a1)
	lbu	a4, 28(a1)
	lbu	a5, 29(a1)
	lbu	a6, 30(a1)
	lbu	a7, 31(a1)
	lbu	t1, 16(a1)
	lbu	t3, 17(a1)
	lbu	a0, 18(a1)
	lbu	s1, 19(a1)
	lbu	s2, 20(a1)
	lbu	s0, 21(a1)
	lbu	t4, 22(a1)
	lbu	t5, 23(a1)
	slli	t2, t2, 8
	slli	a2, a2, 16
	slli	a3, a3, 24
	slli	a5, a5, 8
	or	t0, t2, t0
	or	t2, a3, a2
	or	t6, a5, a4
	lbu	s3, 8(a1)
	lbu	a3, 9(a1)
	lbu	a4, 10(a1)
	lbu	a5, 11(a1)
	slli	a6, a6, 16
	slli	a7, a7, 24
	slli	t3, t3, 8
	slli	a0, a0, 16
	slli	s1, s1, 24
	slli	s0, s0, 8
	or	a6, a7, a6
	or	a7, t3, t1
	or	t1, s1, a0
	or	t3, s0, s2
	lbu	a2, 12(a1)
	lbu	s0, 13(a1)
	lbu	a0, 14(a1)
	lbu	s1, 15(a1)
	slli	t4, t4, 16
	slli	t5, t5, 24
	slli	a3, a3, 8
	slli	a4, a4, 16
	slli	a5, a5, 24
	slli	s0, s0, 8
	or	t4, t5, t4
	or	t5, a3, s3
	or	s3, a5, a4
	or	s2, s0, a2
	lbu	a3, 0(a1)
	lbu	a5, 1(a1)
	lbu	s0, 2(a1)
	lbu	a2, 3(a1)
	slli	a0, a0, 16
	slli	s1, s1, 24
	slli	a5, a5, 8
	slli	s0, s0, 16
	slli	a2, a2, 24
	or	s4, s1, a0
	or	s5, a5, a3
	or	s7, a2, s0
	lbu	a5, 5(a1)
	lbu	s0, 4(a1)
	lbu	s1, 6(a1)
	lbu	a1, 7(a1)
	slli	a5, a5, 8
	or	s9, a5, s0
	slli	s1, s1, 16
	slli	a1, a1, 24
	or	a1, a1, s1
	or	s1, t2, t0
	or	s0, a6, t6
	or	a4, t1, a7
	or	a0, t4, t3
	or	a3, s3, t5
	or	a2, s4, s2
	or	a5, s7, s5
	or	a1, a1, s9
	slli	s0, s0, 32
	or	s0, s0, s1
	slli	a0, a0, 32
	or	a0, a0, a4
	slli	a2, a2, 32
	or	a2, a2, a3
	slli	a1, a1, 32
	or	a1, a1, a5
	sd	a1, 944(sp)
	sd	a2, 952(sp)
	sd	a0, 960(sp)
	sd	s0, 968(sp)
	j	.Lnoise_BB94_44
.Lnoise_BB94_43:
	sd	zero, 944(sp)
	sd	zero, 952(sp)
	sd	zero, 960(sp)
	sd	zero, 968(sp)
.Lnoise_BB94_44:
	ld	s0, 24(sp)
	sb	s8, 1431(s0)
	ld	a0, 944(sp)
	ld	a1, 952(sp)
	ld	a2, 960(sp)
	ld	a3, 968(sp)
	sd	a0, 160(s10)
	sd	a1, 168(s10)
	sd	a2, 176(s10)
	sd	a3, 184(s10)
	addi	a0, s0, 1432
	addi	a1, sp, 2047
	addi	a1, a1, 73
	li	a2, 32
	call	memcpy
	li	a0, 0
	sd	s6, 1464(s0)
	j	.Lnoise_BB94_9
.Lnoise_BB94_45:
	unimp
.Lnoise_func_end94:
	.size	noise_write, .Lnoise_func_end94-noise_write
	.cfi_endproc

	.type	.Lnoise_static.0,@object
	.section	.rodata..Lnoise_static.0,"a",@progbits
.Lnoise_static.0:
	.zero	15
	.size	.Lnoise_static.0, 15

	.type	.Lnoise_static.1,@object
	.section	.rodata..Lnoise_static.1,"a",@progbits
.Lnoise_static.1:
	.size	.Lnoise_static.1, 0

	.type	.Lnoise_static.2,@object
	.section	.rodata.str1.1,"aMS",@progbits,1
.Lnoise_static.2:
	.zero	1
	.size	.Lnoise_static.2, 1

	.type	.Lnoise_static.4,@object
	.section	.rodata..Lnoise_static.4,"a",@progbits
.Lnoise_static.4:
	.asciz	"The call succeeded.\000\000\000\000\000\000\000\000\000\000\000\000\000\000\000\000\000\000\000\000\000\000\000\000\000\000\000\000\000\000\000\000\000\000\000\000\000\000\000\000\000\000\000\000\000\000\000\000\000\000\000\000\000\000\000\000\000\000\000\000"
	.size	.Lnoise_static.4, 80

	.type	.Lnoise_static.5,@object
	.section	.rodata..Lnoise_static.5,"a",@progbits
.Lnoise_static.5:
	.asciz	"No fundamental pattern with 25519, ChaChaPoly, SHA256 has this name.\000\000\000\000\000\000\000\000\000\000\000"
	.size	.Lnoise_static.5, 80

	.type	.Lnoise_static.6,@object
	.section	.rodata..Lnoise_static.6,"a",@progbits
.Lnoise_static.6:
	.asciz	"The pattern text has a fault: noise_check_pattern says where.\000\000\000\000\000\000\000\000\000\000\000\000\000\000\000\000\000\000"
	.size	.Lnoise_static.6, 80

	.type	.Lnoise_static.7,@object
	.section	.rodata..Lnoise_static.7,"a",@progbits
.Lnoise_static.7:
	.asciz	"The setup lacks this party's ephemeral public key.\000\000\000\000\000\000\000\000\000\000\000\000\000\000\000\000\000\000\000\000\000\000\000\000\000\000\000\000\000"
	.size	.Lnoise_static.7, 80

	.type	.Lnoise_static.8,@object
	.section	.rodata..Lnoise_static.8,"a",@progbits
.Lnoise_static.8:
	.asciz	"The setup lacks this party's static public key.\000\000\000\000\000\000\000\000\000\000\000\000\000\000\000\000\000\000\000\000\000\000\000\000\000\000\000\000\000\000\000\000"
	.size	.Lnoise_static.8, 80

	.type	.Lnoise_static.9,@object
	.section	.rodata..Lnoise_static.9,"a",@progbits
.Lnoise_static.9:
	.asciz	"The setup lacks a key of the other party's pre-message.\000\000\000\000\000\000\000\000\000\000\000\000\000\000\000\000\000\000\000\000\000\000\000\000"
	.size	.Lnoise_static.9, 80

	.type	.Lnoise_static.10,@object
	.section	.rodata..Lnoise_static.10,"a",@progbits
.Lnoise_static.10:
	.asciz	"The setup has a remote key that isn't in a pre-message.\000\000\000\000\000\000\000\000\000\000\000\000\000\000\000\000\000\000\000\000\000\000\000\000"
	.size	.Lnoise_static.10, 80

	.type	.Lnoise_static.11,@object
	.section	.rodata..Lnoise_static.11,"a",@progbits
.Lnoise_static.11:
	.asciz	"There are more psks than psk tokens.\000\000\000\000\000\000\000\000\000\000\000\000\000\000\000\000\000\000\000\000\000\000\000\000\000\000\000\000\000\000\000\000\000\000\000\000\000\000\000\000\000\000\000"
	.size	.Lnoise_static.11, 80

	.type	.Lnoise_static.12,@object
	.section	.rodata..Lnoise_static.12,"a",@progbits
.Lnoise_static.12:
	.asciz	"It is the other party's turn.\000\000\000\000\000\000\000\000\000\000\000\000\000\000\000\000\000\000\000\000\000\000\000\000\000\000\000\000\000\000\000\000\000\000\000\000\000\000\000\000\000\000\000\000\000\000\000\000\000\000"
	.size	.Lnoise_static.12, 80

	.type	.Lnoise_static.13,@object
	.section	.rodata..Lnoise_static.13,"a",@progbits
.Lnoise_static.13:
	.asciz	"The message would be or is too long.\000\000\000\000\000\000\000\000\000\000\000\000\000\000\000\000\000\000\000\000\000\000\000\000\000\000\000\000\000\000\000\000\000\000\000\000\000\000\000\000\000\000\000"
	.size	.Lnoise_static.13, 80

	.type	.Lnoise_static.14,@object
	.section	.rodata..Lnoise_static.14,"a",@progbits
.Lnoise_static.14:
	.asciz	"All messages of the handshake have passed.\000\000\000\000\000\000\000\000\000\000\000\000\000\000\000\000\000\000\000\000\000\000\000\000\000\000\000\000\000\000\000\000\000\000\000\000\000"
	.size	.Lnoise_static.14, 80

	.type	.Lnoise_static.15,@object
	.section	.rodata..Lnoise_static.15,"a",@progbits
.Lnoise_static.15:
	.asciz	"The handshake has ended: a message was refused, or it was finished.\000\000\000\000\000\000\000\000\000\000\000\000"
	.size	.Lnoise_static.15, 80

	.type	.Lnoise_static.16,@object
	.section	.rodata..Lnoise_static.16,"a",@progbits
.Lnoise_static.16:
	.asciz	"A result of X25519 is missing in a struct that was changed.\000\000\000\000\000\000\000\000\000\000\000\000\000\000\000\000\000\000\000\000"
	.size	.Lnoise_static.16, 80

	.type	.Lnoise_static.17,@object
	.section	.rodata..Lnoise_static.17,"a",@progbits
.Lnoise_static.17:
	.asciz	"The message has too few bytes.\000\000\000\000\000\000\000\000\000\000\000\000\000\000\000\000\000\000\000\000\000\000\000\000\000\000\000\000\000\000\000\000\000\000\000\000\000\000\000\000\000\000\000\000\000\000\000\000\000"
	.size	.Lnoise_static.17, 80

	.type	.Lnoise_static.18,@object
	.section	.rodata..Lnoise_static.18,"a",@progbits
.Lnoise_static.18:
	.asciz	"A tag is wrong: keys, psks or prologues differ, or bytes changed.\000\000\000\000\000\000\000\000\000\000\000\000\000\000"
	.size	.Lnoise_static.18, 80

	.type	.Lnoise_static.19,@object
	.section	.rodata..Lnoise_static.19,"a",@progbits
.Lnoise_static.19:
	.asciz	"The nonce is 2^64 - 1: this key encrypts and decrypts no more.\000\000\000\000\000\000\000\000\000\000\000\000\000\000\000\000\000"
	.size	.Lnoise_static.19, 80

	.type	.Lnoise_static.20,@object
	.section	.rodata..Lnoise_static.20,"a",@progbits
.Lnoise_static.20:
	.asciz	"The buffer is too short for the message.\000\000\000\000\000\000\000\000\000\000\000\000\000\000\000\000\000\000\000\000\000\000\000\000\000\000\000\000\000\000\000\000\000\000\000\000\000\000\000"
	.size	.Lnoise_static.20, 80

	.type	.Lnoise_static.21,@object
	.section	.rodata..Lnoise_static.21,"a",@progbits
.Lnoise_static.21:
	.asciz	"Messages of the handshake are still due.\000\000\000\000\000\000\000\000\000\000\000\000\000\000\000\000\000\000\000\000\000\000\000\000\000\000\000\000\000\000\000\000\000\000\000\000\000\000\000"
	.size	.Lnoise_static.21, 80

	.type	.Lnoise_static.22,@object
	.section	.rodata..Lnoise_static.22,"a",@progbits
.Lnoise_static.22:
	.asciz	"A result of X25519 is needed: pass it to noise_answer; call again.\000\000\000\000\000\000\000\000\000\000\000\000\000"
	.size	.Lnoise_static.22, 80

	.type	.Lnoise_static.23,@object
	.section	.rodata..Lnoise_static.23,"a",@progbits
.Lnoise_static.23:
	.asciz	"In a one-way pattern only the initiator sends.\000\000\000\000\000\000\000\000\000\000\000\000\000\000\000\000\000\000\000\000\000\000\000\000\000\000\000\000\000\000\000\000\000"
	.size	.Lnoise_static.23, 80

	.type	.Lnoise_static.24,@object
	.section	.rodata..Lnoise_static.24,"a",@progbits
.Lnoise_static.24:
	.asciz	"The struct holds no state that a call could have made.\000\000\000\000\000\000\000\000\000\000\000\000\000\000\000\000\000\000\000\000\000\000\000\000\000"
	.size	.Lnoise_static.24, 80

	.type	.Lnoise_static.25,@object
	.section	.rodata..Lnoise_static.25,"a",@progbits
.Lnoise_static.25:
	.asciz	"The prologue, message or associated data has more than 65535 bytes.\000\000\000\000\000\000\000\000\000\000\000\000"
	.size	.Lnoise_static.25, 80

	.type	.Lnoise_static.26,@object
	.section	.rodata..Lnoise_static.26,"a",@progbits
.Lnoise_static.26:
	.asciz	"The window is not 64, 256 or 1024.\000\000\000\000\000\000\000\000\000\000\000\000\000\000\000\000\000\000\000\000\000\000\000\000\000\000\000\000\000\000\000\000\000\000\000\000\000\000\000\000\000\000\000\000\000"
	.size	.Lnoise_static.26, 80

	.type	.Lnoise_static.27,@object
	.section	.rodata..Lnoise_static.27,"a",@progbits
.Lnoise_static.27:
	.asciz	"The datagram has the nonce 2^64 - 1, which no datagram may have.\000\000\000\000\000\000\000\000\000\000\000\000\000\000\000"
	.size	.Lnoise_static.27, 80

	.type	.Lnoise_static.28,@object
	.section	.rodata..Lnoise_static.28,"a",@progbits
.Lnoise_static.28:
	.asciz	"The datagram is older than the window.\000\000\000\000\000\000\000\000\000\000\000\000\000\000\000\000\000\000\000\000\000\000\000\000\000\000\000\000\000\000\000\000\000\000\000\000\000\000\000\000\000"
	.size	.Lnoise_static.28, 80

	.type	.Lnoise_static.29,@object
	.section	.rodata..Lnoise_static.29,"a",@progbits
.Lnoise_static.29:
	.asciz	"A datagram with this nonce was opened before.\000\000\000\000\000\000\000\000\000\000\000\000\000\000\000\000\000\000\000\000\000\000\000\000\000\000\000\000\000\000\000\000\000\000"
	.size	.Lnoise_static.29, 80

	.type	.Lnoise_static.30,@object
	.section	.rodata..Lnoise_static.30,"a",@progbits
.Lnoise_static.30:
	.asciz	"A payload of this length can not be written now.\000\000\000\000\000\000\000\000\000\000\000\000\000\000\000\000\000\000\000\000\000\000\000\000\000\000\000\000\000\000\000"
	.size	.Lnoise_static.30, 80

	.type	.Lnoise_static.31,@object
	.section	.rodata..Lnoise_static.31,"a",@progbits
.Lnoise_static.31:
	.asciz	"Line 1 isn't a base name, its modifiers in order, and a colon.\000\000\000\000\000\000\000\000\000\000\000\000\000\000\000\000\000"
	.size	.Lnoise_static.31, 80

	.type	.Lnoise_static.32,@object
	.section	.rodata..Lnoise_static.32,"a",@progbits
.Lnoise_static.32:
	.asciz	"The line does not begin with two spaces, an arrow and a space.\000\000\000\000\000\000\000\000\000\000\000\000\000\000\000\000\000"
	.size	.Lnoise_static.32, 80

	.type	.Lnoise_static.33,@object
	.section	.rodata..Lnoise_static.33,"a",@progbits
.Lnoise_static.33:
	.asciz	"A word of the line is not a token.\000\000\000\000\000\000\000\000\000\000\000\000\000\000\000\000\000\000\000\000\000\000\000\000\000\000\000\000\000\000\000\000\000\000\000\000\000\000\000\000\000\000\000\000\000"
	.size	.Lnoise_static.33, 80

	.type	.Lnoise_static.34,@object
	.section	.rodata..Lnoise_static.34,"a",@progbits
.Lnoise_static.34:
	.asciz	"A pre-message has tokens other than e and s, or is misplaced.\000\000\000\000\000\000\000\000\000\000\000\000\000\000\000\000\000\000"
	.size	.Lnoise_static.34, 80

	.type	.Lnoise_static.35,@object
	.section	.rodata..Lnoise_static.35,"a",@progbits
.Lnoise_static.35:
	.asciz	"The line is a message of the wrong party.\000\000\000\000\000\000\000\000\000\000\000\000\000\000\000\000\000\000\000\000\000\000\000\000\000\000\000\000\000\000\000\000\000\000\000\000\000\000"
	.size	.Lnoise_static.35, 80

	.type	.Lnoise_static.36,@object
	.section	.rodata..Lnoise_static.36,"a",@progbits
.Lnoise_static.36:
	.asciz	"The psk tokens are not where the heading says.\000\000\000\000\000\000\000\000\000\000\000\000\000\000\000\000\000\000\000\000\000\000\000\000\000\000\000\000\000\000\000\000\000"
	.size	.Lnoise_static.36, 80

	.type	.Lnoise_static.37,@object
	.section	.rodata..Lnoise_static.37,"a",@progbits
.Lnoise_static.37:
	.asciz	"The base name is that of another pattern, a fundamental one.\000\000\000\000\000\000\000\000\000\000\000\000\000\000\000\000\000\000\000"
	.size	.Lnoise_static.37, 80

	.type	.Lnoise_static.38,@object
	.section	.rodata..Lnoise_static.38,"a",@progbits
.Lnoise_static.38:
	.asciz	"A ninth message, no token but psk, or more than eight others.\000\000\000\000\000\000\000\000\000\000\000\000\000\000\000\000\000\000"
	.size	.Lnoise_static.38, 80

	.type	.Lnoise_static.39,@object
	.section	.rodata..Lnoise_static.39,"a",@progbits
.Lnoise_static.39:
	.asciz	"The line has no line feed, or there is no message.\000\000\000\000\000\000\000\000\000\000\000\000\000\000\000\000\000\000\000\000\000\000\000\000\000\000\000\000\000"
	.size	.Lnoise_static.39, 80

	.type	.Lnoise_static.40,@object
	.section	.rodata..Lnoise_static.40,"a",@progbits
.Lnoise_static.40:
	.asciz	"The pattern breaks a rule of validity.\000\000\000\000\000\000\000\000\000\000\000\000\000\000\000\000\000\000\000\000\000\000\000\000\000\000\000\000\000\000\000\000\000\000\000\000\000\000\000\000\000"
	.size	.Lnoise_static.40, 80

	.type	.Lnoise_static.41,@object
	.section	.rodata..Lnoise_static.41,"a",@progbits
.Lnoise_static.41:
	.asciz	"A psk is needed: pass it to noise_set_psk; call again.\000\000\000\000\000\000\000\000\000\000\000\000\000\000\000\000\000\000\000\000\000\000\000\000\000"
	.size	.Lnoise_static.41, 80

	.type	.Lnoise_static.42,@object
	.section	.rodata..Lnoise_static.42,"a",@progbits
.Lnoise_static.42:
	.asciz	"The other party has ended the stream, and all of it came.\000\000\000\000\000\000\000\000\000\000\000\000\000\000\000\000\000\000\000\000\000\000"
	.size	.Lnoise_static.42, 80

	.type	.Lnoise_static.43,@object
	.section	.rodata..Lnoise_static.43,"a",@progbits
.Lnoise_static.43:
	.asciz	"The frame is not complete.\000\000\000\000\000\000\000\000\000\000\000\000\000\000\000\000\000\000\000\000\000\000\000\000\000\000\000\000\000\000\000\000\000\000\000\000\000\000\000\000\000\000\000\000\000\000\000\000\000\000\000\000\000"
	.size	.Lnoise_static.43, 80

	.type	.Lnoise_static.44,@object
	.section	.rodata..Lnoise_static.44,"a",@progbits
.Lnoise_static.44:
	.asciz	"The stream was ended or refused before.\000\000\000\000\000\000\000\000\000\000\000\000\000\000\000\000\000\000\000\000\000\000\000\000\000\000\000\000\000\000\000\000\000\000\000\000\000\000\000\000"
	.size	.Lnoise_static.44, 80

	.type	.Lnoise_static.45,@object
	.section	.rodata..Lnoise_static.45,"a",@progbits
.Lnoise_static.45:
	.asciz	"The connection ended before the stream did.\000\000\000\000\000\000\000\000\000\000\000\000\000\000\000\000\000\000\000\000\000\000\000\000\000\000\000\000\000\000\000\000\000\000\000\000"
	.size	.Lnoise_static.45, 80

	.type	.Lnoise_static.46,@object
	.section	.rodata..Lnoise_static.46,"a",@progbits
.Lnoise_static.46:
	.asciz	"A buffer that the call writes to overlaps another of its buffers.\000\000\000\000\000\000\000\000\000\000\000\000\000\000"
	.size	.Lnoise_static.46, 80

	.type	.Lnoise_static.47,@object
	.section	.rodata..Lnoise_static.47,"a",@progbits
.Lnoise_static.47:
	.asciz	"This number is not a code of the library.\000\000\000\000\000\000\000\000\000\000\000\000\000\000\000\000\000\000\000\000\000\000\000\000\000\000\000\000\000\000\000\000\000\000\000\000\000\000"
	.size	.Lnoise_static.47, 80

	.type	.Lnoise_static.51,@object
	.section	.rodata..Lnoise_static.51,"a",@progbits
.Lnoise_static.51:
	.ascii	"psk"
	.size	.Lnoise_static.51, 3

	.type	.Lnoise_static.82,@object
	.section	.rodata..Lnoise_static.82,"a",@progbits
.Lnoise_static.82:
	.ascii	"  ...\n"
	.size	.Lnoise_static.82, 6

	.type	.Lnoise_static.85,@object
	.section	.rodata..Lnoise_static.85,"a",@progbits
.Lnoise_static.85:
	.ascii	", "
	.size	.Lnoise_static.85, 2

	.type	.Lnoise_static.88,@object
	.section	.rodata..Lnoise_static.88,"a",@progbits
.Lnoise_static.88:
	.ascii	"->"
	.size	.Lnoise_static.88, 2

	.type	.Lnoise_static.89,@object
	.section	.rodata..Lnoise_static.89,"a",@progbits
.Lnoise_static.89:
	.ascii	"<-"
	.size	.Lnoise_static.89, 2

	.type	.Lnoise_static.90,@object
	.section	.rodata..Lnoise_static.90,"a",@progbits
.Lnoise_static.90:
	.byte	101
	.size	.Lnoise_static.90, 1

	.type	.Lnoise_static.91,@object
	.section	.rodata..Lnoise_static.91,"a",@progbits
.Lnoise_static.91:
	.byte	115
	.size	.Lnoise_static.91, 1

	.type	.Lnoise_static.92,@object
	.section	.rodata..Lnoise_static.92,"a",@progbits
.Lnoise_static.92:
	.zero	2,101
	.size	.Lnoise_static.92, 2

	.type	.Lnoise_static.93,@object
	.section	.rodata..Lnoise_static.93,"a",@progbits
.Lnoise_static.93:
	.ascii	"es"
	.size	.Lnoise_static.93, 2

	.type	.Lnoise_static.94,@object
	.section	.rodata..Lnoise_static.94,"a",@progbits
.Lnoise_static.94:
	.ascii	"se"
	.size	.Lnoise_static.94, 2

	.type	.Lnoise_static.95,@object
	.section	.rodata..Lnoise_static.95,"a",@progbits
.Lnoise_static.95:
	.zero	2,115
	.size	.Lnoise_static.95, 2

	.type	.Lnoise_static.96,@object
	.section	.rodata..Lnoise_static.96,"a",@progbits
.Lnoise_static.96:
	.ascii	"  ..."
	.size	.Lnoise_static.96, 5

	.type	.Lnoise_static.97,@object
	.section	.rodata..Lnoise_static.97,"a",@progbits
.Lnoise_static.97:
	.ascii	"Noise_"
	.size	.Lnoise_static.97, 6

	.type	.Lnoise_static.98,@object
	.section	.rodata..Lnoise_static.98,"a",@progbits
.Lnoise_static.98:
	.ascii	"_25519_ChaChaPoly_SHA256"
	.size	.Lnoise_static.98, 24

	.type	.Lnoise_static.99,@object
	.section	.rodata..Lnoise_static.99,"a",@progbits
	.p2align	2, 0x0
.Lnoise_static.99:
	.ascii	"\230/\212B\221D7q\317\373\300\265\245\333\265\351[\302V9\361\021\361Y\244\202?\222\325^\034\253\230\252\007\330\001[\203\022\276\2051$\303}\fUt]\276r\376\261\336\200\247\006\334\233t\361\233\301\301i\233\344\206G\276\357\306\235\301\017\314\241\f$o,\351-\252\204tJ\334\251\260\\\332\210\371vRQ>\230m\3061\250\310'\003\260\307\177Y\277\363\013\340\306G\221\247\325Qc\312\006g))\024\205\n\267'8!\033.\374m,M\023\r8STs\ne\273\njv.\311\302\201\205,r\222\241\350\277\242Kf\032\250p\213K\302\243Ql\307\031\350\222\321$\006\231\326\2055\016\364p\240j\020\026\301\244\031\bl7\036LwH'\265\274\2604\263\f\0349J\252\330NO\312\234[\363o.h\356\202\217toc\245x\024x\310\204\b\002\307\214\372\377\276\220\353lP\244\367\243\371\276\362xq\306"
	.size	.Lnoise_static.99, 256

	.type	.Lnoise_static.100,@object
	.section	.rodata..Lnoise_static.100,"a",@progbits
.Lnoise_static.100:
	.asciz	"\200\000\000\000\000\000\000\000\000\000\000\000\000\000\000\000\000\000\000\000\000\000\000\000\000\000\000\000\000\000\000\000\000\000\000\000\000\000\000\000\000\000\000\000\000\000\000\000\000\000\000\000\000\000\000\000\000\000\000\000\000\000\000"
	.size	.Lnoise_static.100, 64

	.type	.Lnoise_static.101,@object
	.section	.rodata..Lnoise_static.101,"a",@progbits
.Lnoise_static.101:
	.byte	3
	.size	.Lnoise_static.101, 1

	.type	.Lnoise_static.102,@object
	.section	.data.rel.ro..Lnoise_static.102,"aw",@progbits
	.p2align	3, 0x0
.Lnoise_static.102:
	.quad	.Lnoise_static.102+16
	.asciz	"\001\000\000\000\000\000\000\000\001\000\000\000\000\000\000"
	.size	.Lnoise_static.102, 24

	.type	.Lnoise_static.103,@object
	.section	.rodata..Lnoise_static.103,"a",@progbits
.Lnoise_static.103:
	.byte	2
	.size	.Lnoise_static.103, 1

	.type	noise_Lnoise_switch_table_noise_names_text_write_push_token_line_196,@object
	.section	".rodata..Lnoise_switch.table.noise_names::text::write::push_token_line.196","a",@progbits
	.p2align	3, 0x0
noise_Lnoise_switch_table_noise_names_text_write_push_token_line_196:
	.quad	1
	.quad	1
	.quad	2
	.quad	2
	.quad	2
	.quad	2
	.quad	3
	.size	noise_Lnoise_switch_table_noise_names_text_write_push_token_line_196, 56

	.type	noise_Lnoise_switch_table_noise_names_text_write_push_token_line_197,@object
	.section	".data.rel.ro..Lnoise_switch.table.noise_names::text::write::push_token_line.197","aw",@progbits
	.p2align	3, 0x0
noise_Lnoise_switch_table_noise_names_text_write_push_token_line_197:
	.quad	.Lnoise_static.90
	.quad	.Lnoise_static.91
	.quad	.Lnoise_static.92
	.quad	.Lnoise_static.93
	.quad	.Lnoise_static.94
	.quad	.Lnoise_static.95
	.quad	.Lnoise_static.51
	.size	noise_Lnoise_switch_table_noise_names_text_write_push_token_line_197, 56

	.type	noise_Lnoise_switch_table_noise_c_messages_read_next,@object
	.section	".rodata..Lnoise_switch.table.noise_c::messages::read_next","a",@progbits
	.p2align	2, 0x0
noise_Lnoise_switch_table_noise_c_messages_read_next:
	.word	15
	.word	16
	.word	14
	.size	noise_Lnoise_switch_table_noise_c_messages_read_next, 12

	.type	.Lnoise_switch.table.noise_cipher_encrypt,@object
	.section	.rodata.cst16,"aM",@progbits,16
	.p2align	2, 0x0
.Lnoise_switch.table.noise_cipher_encrypt:
	.word	17
	.word	16
	.word	15
	.word	11
	.size	.Lnoise_switch.table.noise_cipher_encrypt, 16

	.type	.Lnoise_switch.table.noise_sentence,@object
	.section	.rodata..Lnoise_switch.table.noise_sentence,"a",@progbits
	.p2align	3, 0x0
.Lnoise_switch.table.noise_sentence:
	.quad	19
	.quad	68
	.quad	61
	.quad	41
	.quad	50
	.quad	47
	.quad	55
	.quad	55
	.quad	36
	.quad	41
	.quad	29
	.quad	36
	.quad	42
	.quad	67
	.quad	59
	.quad	30
	.quad	65
	.quad	62
	.quad	40
	.quad	40
	.quad	66
	.quad	41
	.quad	46
	.quad	54
	.quad	67
	.quad	34
	.quad	64
	.quad	38
	.quad	45
	.quad	48
	.quad	62
	.quad	62
	.quad	34
	.quad	61
	.quad	41
	.quad	46
	.quad	60
	.quad	61
	.quad	50
	.quad	38
	.quad	54
	.quad	57
	.quad	26
	.quad	39
	.quad	43
	.quad	65
	.size	.Lnoise_switch.table.noise_sentence, 368

	.type	.Lnoise_switch.table.noise_sentence.198.rel,@object
	.section	.rodata..Lnoise_switch.table.noise_sentence.198.rel,"a",@progbits
	.p2align	2, 0x0
.Lnoise_switch.table.noise_sentence.198.rel:
	.word	.Lnoise_static.4-.Lnoise_switch.table.noise_sentence.198.rel
	.word	.Lnoise_static.5-.Lnoise_switch.table.noise_sentence.198.rel
	.word	.Lnoise_static.6-.Lnoise_switch.table.noise_sentence.198.rel
	.word	.Lnoise_static.47-.Lnoise_switch.table.noise_sentence.198.rel
	.word	.Lnoise_static.7-.Lnoise_switch.table.noise_sentence.198.rel
	.word	.Lnoise_static.8-.Lnoise_switch.table.noise_sentence.198.rel
	.word	.Lnoise_static.9-.Lnoise_switch.table.noise_sentence.198.rel
	.word	.Lnoise_static.10-.Lnoise_switch.table.noise_sentence.198.rel
	.word	.Lnoise_static.11-.Lnoise_switch.table.noise_sentence.198.rel
	.word	.Lnoise_static.47-.Lnoise_switch.table.noise_sentence.198.rel
	.word	.Lnoise_static.12-.Lnoise_switch.table.noise_sentence.198.rel
	.word	.Lnoise_static.13-.Lnoise_switch.table.noise_sentence.198.rel
	.word	.Lnoise_static.14-.Lnoise_switch.table.noise_sentence.198.rel
	.word	.Lnoise_static.15-.Lnoise_switch.table.noise_sentence.198.rel
	.word	.Lnoise_static.16-.Lnoise_switch.table.noise_sentence.198.rel
	.word	.Lnoise_static.17-.Lnoise_switch.table.noise_sentence.198.rel
	.word	.Lnoise_static.18-.Lnoise_switch.table.noise_sentence.198.rel
	.word	.Lnoise_static.19-.Lnoise_switch.table.noise_sentence.198.rel
	.word	.Lnoise_static.20-.Lnoise_switch.table.noise_sentence.198.rel
	.word	.Lnoise_static.21-.Lnoise_switch.table.noise_sentence.198.rel
	.word	.Lnoise_static.22-.Lnoise_switch.table.noise_sentence.198.rel
	.word	.Lnoise_static.47-.Lnoise_switch.table.noise_sentence.198.rel
	.word	.Lnoise_static.23-.Lnoise_switch.table.noise_sentence.198.rel
	.word	.Lnoise_static.24-.Lnoise_switch.table.noise_sentence.198.rel
	.word	.Lnoise_static.25-.Lnoise_switch.table.noise_sentence.198.rel
	.word	.Lnoise_static.26-.Lnoise_switch.table.noise_sentence.198.rel
	.word	.Lnoise_static.27-.Lnoise_switch.table.noise_sentence.198.rel
	.word	.Lnoise_static.28-.Lnoise_switch.table.noise_sentence.198.rel
	.word	.Lnoise_static.29-.Lnoise_switch.table.noise_sentence.198.rel
	.word	.Lnoise_static.30-.Lnoise_switch.table.noise_sentence.198.rel
	.word	.Lnoise_static.31-.Lnoise_switch.table.noise_sentence.198.rel
	.word	.Lnoise_static.32-.Lnoise_switch.table.noise_sentence.198.rel
	.word	.Lnoise_static.33-.Lnoise_switch.table.noise_sentence.198.rel
	.word	.Lnoise_static.34-.Lnoise_switch.table.noise_sentence.198.rel
	.word	.Lnoise_static.35-.Lnoise_switch.table.noise_sentence.198.rel
	.word	.Lnoise_static.36-.Lnoise_switch.table.noise_sentence.198.rel
	.word	.Lnoise_static.37-.Lnoise_switch.table.noise_sentence.198.rel
	.word	.Lnoise_static.38-.Lnoise_switch.table.noise_sentence.198.rel
	.word	.Lnoise_static.39-.Lnoise_switch.table.noise_sentence.198.rel
	.word	.Lnoise_static.40-.Lnoise_switch.table.noise_sentence.198.rel
	.word	.Lnoise_static.41-.Lnoise_switch.table.noise_sentence.198.rel
	.word	.Lnoise_static.42-.Lnoise_switch.table.noise_sentence.198.rel
	.word	.Lnoise_static.43-.Lnoise_switch.table.noise_sentence.198.rel
	.word	.Lnoise_static.44-.Lnoise_switch.table.noise_sentence.198.rel
	.word	.Lnoise_static.45-.Lnoise_switch.table.noise_sentence.198.rel
	.word	.Lnoise_static.46-.Lnoise_switch.table.noise_sentence.198.rel
	.size	.Lnoise_switch.table.noise_sentence.198.rel, 184

	.type	.Lnoise_switch.table.noise_stream_read,@object
	.section	.rodata.cst16,"aM",@progbits,16
	.p2align	2, 0x0
.Lnoise_switch.table.noise_stream_read:
	.word	15
	.word	16
	.word	17
	.word	22
	.size	.Lnoise_switch.table.noise_stream_read, 16

	.type	.Lnoise_switch.table.noise_datagram_open.200,@object
	.section	.rodata..Lnoise_switch.table.noise_datagram_open.200,"a",@progbits
	.p2align	3, 0x0
.Lnoise_switch.table.noise_datagram_open.200:
	.quad	64
	.quad	256
	.quad	1024
	.size	.Lnoise_switch.table.noise_datagram_open.200, 24

	.type	.Lnoise_switch.table.noise_datagram_open.202,@object
	.section	.rodata..Lnoise_switch.table.noise_datagram_open.202,"a",@progbits
	.p2align	3, 0x0
.Lnoise_switch.table.noise_datagram_open.202:
	.quad	2
	.quad	5
	.quad	17
	.size	.Lnoise_switch.table.noise_datagram_open.202, 24

	.type	.Lnoise_switch.table.noise_finish_datagrams,@object
	.section	.rodata..Lnoise_switch.table.noise_finish_datagrams,"a",@progbits
	.p2align	2, 0x0
.Lnoise_switch.table.noise_finish_datagrams:
	.word	64
	.word	256
	.word	1024
	.size	.Lnoise_switch.table.noise_finish_datagrams, 12

	.ident	"rattle logic=dac8208d650f15bf3e2dc313a14fa4c783a3acf887bdfab66e1714b038d9e11b"
	.section	".note.GNU-stack","",@progbits
