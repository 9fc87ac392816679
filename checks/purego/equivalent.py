"""Mutants of the library in plain Go that no test can see, and why: the function, its line, and what that becomes."""

AT_A_BLOCK = "no call: a block begins at word 0, 16, 32 or 48 of the 64, so the words of one are never cut by a refill"
OVERLAP = "no call: the copy is of what overlaps, and each argument of a call has its own place (calls.go)"

EQUIVALENT = {
    (
        "noise_aead::authenticator::tag",
        "l5 = (l1 + l5)",
        "l5 = (l1 - l5)",
    ): "no call: it is of a last block of fewer than 16 bytes, and both texts are padded to whole blocks",
    ("noise_aead::keystream::apply", "l10 = 1", "l10 = 2"): AT_A_BLOCK,
    (
        "noise_aead::keystream::apply",
        "t412 := m.get64(uint32(l11) - 0xfcec0)",
        "t412 := m.get64(uint32(l11) - 0xfcebf)",
    ): AT_A_BLOCK,
    (
        "noise_state::cipher::CipherState::rekey",
        "t54 := m.get64(uint32(l1) - 0xfcd48)",
        "t54 := m.get64(uint32(l1) - 0xfcd47)",
    ): AT_A_BLOCK,
    (
        "noise_state::cipher::CipherState::rekey",
        "t94 := m.get64(uint32(l1) - 0xfcd40)",
        "t94 := m.get64(uint32(l1) - 0xfcd41)",
    ): AT_A_BLOCK,
    (
        "noise_state::cipher::CipherState::rekey",
        "f5(m, (l1 + 0x158), t74, t75, l4)",
        "f5(m, (l1 - 0x158), t74, t75, l4)",
    ): AT_A_BLOCK,
    (
        "noise_names::table::row",
        "m.put64(uint32(l2)-0xfc938, 0)",
        "m.put64(uint32(l2)-0xfc939, 0)",
    ): "the same 0 was put there before, and the byte in front of it is read nowhere: it is between two fields",
    (
        "noise_names::text::read::read_line",
        "m.put64(uint32(l0)-0xfcea0, 0)",
        "m.put64(uint32(l0)-0xfcea0, 1)",
    ): "a part of None: each of the four callers reads it only where the first byte says that something is there",
    (
        "core::slice::reads::slice+T::contains::<i8,31'core::cmp::numbers::U8PartialEq{}>",
        "t192 := uint32(uint8(l6a >> 16))",
        "t192 := uint32(uint8(l6a << 16))",
    ): "no call: it is of lists of more than 32, and the only ones are places of psk tokens, at most 9",
    (
        "noise_c::split::finished",
        "m.put128q(uint32(l2)-0xfcbf0, l3a, l3b)",
        "m.put128q(uint32(l2)-0xfcbef, l3a, l3b)",
    ): "zeros for a refusal, which copies them and gives nothing of the copy: where it is none, both are put anew",
    (
        "noise_handshake::writer::write_lacking::<#9bbb2dae5a99aff0>",
        "binary.LittleEndian.PutUint64(t9[8:16], l8b)",
        "binary.LittleEndian.PutUint64(t9[7:15], l8b)",
    ): "zeros that are read nowhere: all 34 bytes of the place are put anew on each way to where it is read",
    (
        "rattle::export noise_start",
        "t367, t368 := m.get128q(uint32(l6) - 0xfceb0)",
        "t367, t368 := m.get128q(uint32(l6) - 0xfceb1)",
    ): OVERLAP,
}
