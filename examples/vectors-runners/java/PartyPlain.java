import java.io.ByteArrayOutputStream;
import java.math.BigInteger;
import java.nio.ByteBuffer;
import java.nio.ByteOrder;
import java.nio.charset.StandardCharsets;
import java.security.GeneralSecurityException;
import java.security.KeyFactory;
import java.security.MessageDigest;
import java.security.spec.NamedParameterSpec;
import java.security.spec.XECPrivateKeySpec;
import java.security.spec.XECPublicKeySpec;
import java.util.ArrayDeque;
import java.util.ArrayList;
import java.util.Arrays;
import java.util.Deque;
import java.util.HashMap;
import java.util.List;
import java.util.Map;
import javax.crypto.AEADBadTagException;
import javax.crypto.Cipher;
import javax.crypto.KeyAgreement;
import javax.crypto.Mac;
import javax.crypto.spec.IvParameterSpec;
import javax.crypto.spec.SecretKeySpec;

/**
 * A plain Noise with X25519, ChaCha20-Poly1305 and SHA-256 of the JDK, for Runner. Copy this file, and have it call your
 * implementation in the place of what follows the calls of a party.
 */
public final class PartyPlain implements Runner.Party {
    private static final int KEY = 32;
    private static final int TAG = 16;
    private static final int LONGEST = 65535;
    private static final long RESERVED = -1; // 2^64 - 1, unsigned
    private static final byte[] NOTHING = {};

    private final boolean isInitiator;
    private final boolean hasPsk;
    private final List<List<String>> messages = new ArrayList<>();
    private final Map<String, byte[]> keys = new HashMap<>();
    private final Deque<byte[]> psks = new ArrayDeque<>();
    private CipherState[] ciphers;
    private State state = new State();
    private int at;
    private boolean isEnded;

    public PartyPlain(Runner.Setup setup) throws Runner.Refused {
        if (setup.what().equals("name") || setup.what().equals("pattern")) {
            throw new Runner.NotSupported("names aren't read, and patterns aren't checked");
        }
        if (!setup.protocol().endsWith("_25519_ChaChaPoly_SHA256")) {
            throw new Runner.NotSupported("another suite");
        }
        isInitiator = setup.role().equals("initiator");
        int split = setup.pattern().indexOf("...");
        setup.pattern().subList(split + 1, setup.pattern().size())
                .forEach(it -> messages.add(List.of(it.substring(3).split(", "))));
        hasPsk = messages.stream().anyMatch(it -> it.contains("psk"));
        putKey("e", setup.e());
        putKey("s", setup.s());
        putKey("re", setup.re());
        putKey("rs", setup.rs());
        for (byte[] psk : setup.psks()) {
            psks.add(sized(psk));
        }
        if (psks.size() != messages.stream().flatMap(List::stream).filter("psk"::equals).count()) {
            throw new Runner.Refused("the number of psks", null);
        }
        List<String> before = split < 0 ? List.of() : setup.pattern().subList(0, split);
        checkKeys(before);
        begin(setup, before);
    }

    private static byte[] sized(byte[] key) throws Runner.Refused {
        if (key.length != KEY) {
            throw new Runner.Refused("a key of " + key.length + " bytes", null);
        }
        return key;
    }

    private void putKey(String name, byte[] key) throws Runner.Refused {
        if (key != null) {
            keys.put(name, sized(key));
        }
    }

    private boolean isOwn(String line) {
        return line.startsWith("->") == isInitiator;
    }

    private void checkKeys(List<String> before) throws Runner.Refused {
        List<String> needed = new ArrayList<>();
        for (String line : before) {
            for (String token : line.substring(3).split(", ")) {
                needed.add(isOwn(line) ? token : "r" + token);
            }
        }
        for (int i = isInitiator ? 0 : 1; i < messages.size(); i += 2) {
            messages.get(i).stream().filter(it -> it.length() == 1).forEach(needed::add);
        }
        if (!keys.keySet().containsAll(needed)) {
            throw new Runner.Refused("a key is missing", null);
        }
    }

    private void begin(Runner.Setup setup, List<String> before) {
        byte[] name = setup.protocol().getBytes(StandardCharsets.US_ASCII);
        state.h = name.length <= KEY ? Arrays.copyOf(name, KEY) : hash(name);
        state.ck = state.h;
        state.mixHash(setup.prologue());
        for (String arrow : List.of("->", "<-")) {
            for (String line : before) {
                if (line.startsWith(arrow)) {
                    for (String token : line.substring(3).split(", ")) {
                        byte[] key = isOwn(line) ? publicKey(keys.get(token)) : keys.get("r" + token);
                        mixPublic(state, token, key);
                    }
                }
            }
        }
    }

    private void mixPublic(State to, String token, byte[] key) {
        to.mixHash(key);
        if (token.equals("e") && hasPsk) {
            to.mixKey(key);
        }
    }

    @Override
    public byte[] write(byte[] payload) throws Runner.Refused {
        if (ciphers != null) {
            checkOneWay(isInitiator);
            if (payload.length > LONGEST - TAG) {
                throw new Runner.Refused("too long", null);
            }
            return direction("send").encrypt(NOTHING, payload);
        }
        checkTurn(true);
        State next = state.copy();
        Deque<byte[]> left = new ArrayDeque<>(psks);
        ByteArrayOutputStream made = new ByteArrayOutputStream();
        for (String token : messages.get(at)) {
            if (token.equals("e")) {
                byte[] key = publicKey(keys.get("e"));
                made.writeBytes(key);
                mixPublic(next, "e", key);
            } else if (token.equals("s")) {
                made.writeBytes(next.encryptAndHash(publicKey(keys.get("s"))));
            } else {
                mix(next, left, token);
            }
        }
        made.writeBytes(next.encryptAndHash(payload));
        if (made.size() > LONGEST) {
            throw new Runner.Refused("too long", null);
        }
        passed(next, left);
        return made.toByteArray();
    }

    @Override
    public byte[] read(byte[] message) throws Runner.Refused {
        if (message.length > LONGEST) {
            isEnded = ciphers == null;
            throw new Runner.Refused("too long", null);
        }
        if (ciphers != null) {
            checkOneWay(!isInitiator);
            return direction("receive").decrypt(NOTHING, message, null);
        }
        checkTurn(false);
        State next = state.copy();
        Deque<byte[]> left = new ArrayDeque<>(psks);
        try {
            ByteBuffer rest = ByteBuffer.wrap(message);
            for (String token : messages.get(at)) {
                if (token.length() > 1) {
                    mix(next, left, token);
                    continue;
                }
                byte[] piece = new byte[token.equals("s") && next.cipher.key != null ? KEY + TAG : KEY];
                if (rest.remaining() < piece.length) {
                    throw new Runner.Refused("short", token);
                }
                rest.get(piece);
                if (token.equals("e")) {
                    mixPublic(next, "e", piece);
                    keys.put("re", piece);
                } else {
                    keys.put("rs", next.decryptAndHash(piece, "s"));
                }
            }
            byte[] last = new byte[rest.remaining()];
            rest.get(last);
            byte[] payload = next.decryptAndHash(last, "payload");
            passed(next, left);
            return payload;
        } catch (Runner.Refused refused) {
            isEnded = true;
            throw refused;
        }
    }

    private void checkOneWay(boolean ofInitiator) throws Runner.Refused {
        if (messages.size() == 1 && !ofInitiator) {
            throw new Runner.Refused("one-way", null);
        }
    }

    private void checkTurn(boolean isWrite) throws Runner.Refused {
        if (isEnded) {
            throw new Runner.Refused("ended", null);
        }
        if ((at % 2 == 0) == (isInitiator != isWrite)) {
            throw new Runner.Refused("not its turn", null);
        }
    }

    private void mix(State to, Deque<byte[]> left, String token) {
        if (token.equals("psk")) {
            to.mixKeyAndHash(left.remove());
            return;
        }
        String own = token.substring(isInitiator ? 0 : 1, isInitiator ? 1 : 2);
        String theirs = token.substring(isInitiator ? 1 : 0, isInitiator ? 2 : 1);
        to.mixKey(agree(keys.get(own), keys.get("r" + theirs)));
    }

    private void passed(State next, Deque<byte[]> left) {
        state = next;
        psks.clear();
        psks.addAll(left);
        if (++at == messages.size()) {
            byte[][] made = hkdf(state.ck, NOTHING);
            ciphers = new CipherState[] {new CipherState(made[0]), new CipherState(made[1])};
        }
    }

    private CipherState direction(String name) {
        return ciphers[name.equals("send") == isInitiator ? 0 : 1];
    }

    @Override
    public void rekey(String direction) {
        direction(direction).rekey();
    }

    @Override
    public void setNonce(String direction, long nonce) {
        direction(direction).nonce = nonce;
    }

    @Override
    public byte[] hash() {
        return state.h;
    }

    @Override
    public byte[] remoteStatic() {
        return keys.get("rs");
    }

    /** The CipherState (5.1). */
    private static final class CipherState {
        private byte[] key;
        private long nonce;

        CipherState(byte[] key) {
            this.key = key;
        }

        byte[] encrypt(byte[] data, byte[] text) throws Runner.Refused {
            if (key == null) {
                return text;
            }
            checkNonce();
            return seal(key, nonce++, data, text);
        }

        byte[] decrypt(byte[] data, byte[] text, String token) throws Runner.Refused {
            if (key == null) {
                return text;
            }
            checkNonce();
            if (text.length < TAG) {
                throw new Runner.Refused("short", token);
            }
            try {
                byte[] made = cipher(Cipher.DECRYPT_MODE, key, nonce, data).doFinal(text);
                nonce++;
                return made;
            } catch (AEADBadTagException error) {
                throw new Runner.Refused("tag", token);
            } catch (GeneralSecurityException error) {
                throw new IllegalStateException(error);
            }
        }

        private void checkNonce() throws Runner.Refused {
            if (nonce == RESERVED) {
                throw new Runner.Refused("exhausted", null);
            }
        }

        void rekey() {
            key = Arrays.copyOf(seal(key, RESERVED, NOTHING, new byte[KEY]), KEY);
        }
    }

    /** The SymmetricState (5.2). */
    private static final class State {
        private byte[] h;
        private byte[] ck;
        private CipherState cipher = new CipherState(null);

        State copy() {
            State made = new State();
            made.h = h;
            made.ck = ck;
            made.cipher = new CipherState(cipher.key);
            made.cipher.nonce = cipher.nonce;
            return made;
        }

        void mixHash(byte[] data) {
            byte[] both = Arrays.copyOf(h, h.length + data.length);
            System.arraycopy(data, 0, both, h.length, data.length);
            h = PartyPlain.hash(both);
        }

        void mixKey(byte[] data) {
            byte[][] made = hkdf(ck, data);
            ck = made[0];
            cipher = new CipherState(made[1]);
        }

        void mixKeyAndHash(byte[] data) {
            byte[][] made = hkdf(ck, data);
            ck = made[0];
            mixHash(made[1]);
            cipher = new CipherState(made[2]);
        }

        byte[] encryptAndHash(byte[] text) throws Runner.Refused {
            byte[] made = cipher.encrypt(h, text);
            mixHash(made);
            return made;
        }

        byte[] decryptAndHash(byte[] text, String token) throws Runner.Refused {
            byte[] made = cipher.decrypt(h, text, token);
            mixHash(text);
            return made;
        }
    }

    private static byte[] hash(byte[] data) {
        try {
            return MessageDigest.getInstance("SHA-256").digest(data);
        } catch (GeneralSecurityException error) {
            throw new IllegalStateException(error);
        }
    }

    private static byte[] hmac(byte[] key, byte[]... parts) {
        try {
            Mac made = Mac.getInstance("HmacSHA256");
            made.init(new SecretKeySpec(key, "HmacSHA256"));
            for (byte[] part : parts) {
                made.update(part);
            }
            return made.doFinal();
        } catch (GeneralSecurityException error) {
            throw new IllegalStateException(error);
        }
    }

    /** The three outputs of HKDF (4.3). */
    private static byte[][] hkdf(byte[] ck, byte[] data) {
        byte[] temporary = hmac(ck, data);
        byte[] one = hmac(temporary, new byte[] {1});
        byte[] two = hmac(temporary, one, new byte[] {2});
        return new byte[][] {one, two, hmac(temporary, two, new byte[] {3})};
    }

    private static Cipher cipher(int mode, byte[] key, long nonce, byte[] data) throws GeneralSecurityException {
        byte[] bytes = ByteBuffer.allocate(12).order(ByteOrder.LITTLE_ENDIAN).putInt(0).putLong(nonce).array();
        Cipher made = Cipher.getInstance("ChaCha20-Poly1305");
        made.init(mode, new SecretKeySpec(key, "ChaCha20"), new IvParameterSpec(bytes));
        made.updateAAD(data);
        return made;
    }

    private static byte[] seal(byte[] key, long nonce, byte[] data, byte[] text) {
        try {
            return cipher(Cipher.ENCRYPT_MODE, key, nonce, data).doFinal(text);
        } catch (GeneralSecurityException error) {
            throw new IllegalStateException(error);
        }
    }

    private static byte[] publicKey(byte[] secret) {
        byte[] base = new byte[KEY];
        base[0] = 9;
        return agree(secret, base);
    }

    /** X25519; zeros if the result is zeros, which the JDK refuses. */
    private static byte[] agree(byte[] secret, byte[] remote) {
        byte[] bytes = new byte[KEY];
        for (int i = 0; i < KEY; i++) {
            bytes[i] = remote[KEY - 1 - i];
        }
        bytes[0] &= 0x7f; // the JDK wants the number without its top bit
        try {
            KeyFactory factory = KeyFactory.getInstance("X25519");
            KeyAgreement made = KeyAgreement.getInstance("X25519");
            made.init(factory.generatePrivate(new XECPrivateKeySpec(NamedParameterSpec.X25519, secret)));
            made.doPhase(factory.generatePublic(
                    new XECPublicKeySpec(NamedParameterSpec.X25519, new BigInteger(1, bytes))), true);
            return made.generateSecret();
        } catch (java.security.InvalidKeyException smallOrder) {
            return new byte[KEY];
        } catch (GeneralSecurityException error) {
            throw new IllegalStateException(error);
        }
    }
}
