import java.io.IOException;
import java.math.BigInteger;
import java.nio.charset.StandardCharsets;
import java.nio.file.Files;
import java.nio.file.Path;
import java.security.MessageDigest;
import java.util.ArrayList;
import java.util.Arrays;
import java.util.Comparator;
import java.util.HashMap;
import java.util.HashSet;
import java.util.HexFormat;
import java.util.LinkedHashMap;
import java.util.List;
import java.util.Map;
import java.util.Objects;
import java.util.Set;

/**
 * Runs the suite of test vectors with an implementation in Java: {@code java Runner PARTY SUITE.json [JUNIT.xml]}. PARTY
 * is a class as {@code PartyPlain}, which implements {@link Party} and has a constructor of a {@link Setup}: copy that,
 * and have it call your implementation.
 */
public final class Runner {
    /** One party of a Noise. After the handshake, write and read are of transport messages. */
    public interface Party {
        byte[] write(byte[] payload) throws Refused;

        byte[] read(byte[] message) throws Refused;

        /** Rekeys the direction {@code send} or {@code receive}. */
        void rekey(String direction) throws Refused;

        /** Sets the nonce of a direction; it is unsigned. */
        void setNonce(String direction, long nonce) throws Refused;

        byte[] hash();

        /** Returns the other party's static key, after the handshake. */
        byte[] remoteStatic();
    }

    /** The implementation refuses; anything else that is thrown is a crash, which fails the test. */
    public static final class Refused extends Exception {
        private static final long serialVersionUID = 1;
        /** The name of the token at which a message was refused; null if the implementation doesn't say so. */
        final String token;

        public Refused(String why, String token) {
            super(why);
            this.token = token;
        }
    }

    /** What the implementation doesn't claim to do: the test isn't run. */
    public static final class NotSupported extends RuntimeException {
        private static final long serialVersionUID = 1;

        public NotSupported(String why) {
            super(why);
        }
    }

    /**
     * What a party starts from. A key that isn't there is null; {@code re} and {@code rs} are the other party's public
     * keys that are known beforehand. If {@code what} is "name", the protocol name is tested: read that, and not the
     * pattern.
     */
    public record Setup(
            String role, String what, String protocol, List<String> pattern, byte[] prologue, List<byte[]> psks,
            byte[] e, byte[] s, byte[] re, byte[] rs) {}

    private static final class Failed extends Exception {
        private static final long serialVersionUID = 1;

        Failed(String why) {
            super(why);
        }
    }

    private record Row(Map<String, Object> test, String pattern, String outcome, String why) {}

    private static final int MOST_SHOWN = 200;
    private static final String USAGE = """
            usage: java Runner PARTY SUITE.json [JUNIT.xml] [--only WORDS]

            It runs the suite with the class PARTY, and reports. JUNIT.xml gets each test. --only runs a part: the tests
            that have one of the words, which are joined by commas, as number, pattern or flag. The status is 0 if no
            test failed, 1 if one did, and 2 if nothing was run.""";

    private final Class<?> kind;
    private final Map<String, Object> group;
    private final Map<String, Object> test;
    private final Map<String, Party> parties = new HashMap<>();
    private final Map<Long, byte[]> written = new HashMap<>();

    private Runner(Class<?> kind, Map<String, Object> group, Map<String, Object> test) {
        this.kind = kind;
        this.group = group;
        this.test = test;
    }

    @SuppressWarnings("unchecked")
    private static Map<String, Object> object(Object value) {
        return (Map<String, Object>) value;
    }

    @SuppressWarnings("unchecked")
    private static List<Object> list(Object value) {
        return (List<Object>) value;
    }

    private static List<String> texts(Object value) {
        return list(value).stream().map(String.class::cast).toList();
    }

    private static byte[] hex(Object digits) {
        return digits == null ? null : HexFormat.of().parseHex((String) digits);
    }

    /** Bytes that are given as hex digits, or by a rule. */
    private static byte[] bytes(Object value) {
        if (value instanceof String) {
            return hex(value);
        }
        byte[] made = new byte[((Long) object(value).get("count")).intValue()];
        Arrays.fill(made, hex(object(value).get("byte"))[0]);
        return made;
    }

    private Party start(String role) throws Throwable {
        Map<String, Object> own = object(group.get(role));
        Setup setup = new Setup(
                role, (String) group.getOrDefault("what", ""), (String) group.get("protocol"),
                texts(group.get("pattern")), bytes(group.get("prologue")),
                texts(group.get("psks")).stream().map(Runner::hex).toList(),
                hex(own.get("e")), hex(own.get("s")), hex(own.get("re")), hex(own.get("rs")));
        try {
            return (Party) kind.getDeclaredConstructor(Setup.class).newInstance(setup);
        } catch (java.lang.reflect.InvocationTargetException error) {
            throw error.getCause();
        }
    }

    private Map<String, Object> message(Map<String, Object> step) {
        Long number = (Long) step.get("message");
        return number == null ? Map.of() : object(list(group.get("messages")).get(number.intValue()));
    }

    /** The bytes that a step reads, with the step's change. */
    private byte[] received(Map<String, Object> step) {
        Object given = step.getOrDefault("bytes", message(step).get("message"));
        boolean isLong = given instanceof Map<?, ?> rule && rule.containsKey("sha256");
        byte[] data = isLong ? written.get((Long) step.get("message")) : bytes(given);
        if (step.get("cut") instanceof Long cut) {
            data = Arrays.copyOf(data, cut.intValue());
        }
        byte[] more = bytes(step.getOrDefault("append", ""));
        int length = data.length;
        data = Arrays.copyOf(data, length + more.length);
        System.arraycopy(more, 0, data, length, more.length);
        if (step.containsKey("xor")) {
            List<Object> change = list(step.get("xor"));
            data[((Long) change.get(0)).intValue()] ^= ((Long) change.get(1)).byteValue();
        }
        return data;
    }

    private byte[] call(Party party, Map<String, Object> step) throws Refused {
        String direction = (String) step.get("direction");
        switch ((String) step.get("do")) {
            case "write":
                byte[] made = party.write(bytes(step.getOrDefault("payload", message(step).get("payload"))));
                written.put((Long) step.get("message"), made);
                return made;
            case "read":
                return party.read(received(step));
            case "rekey":
                party.rekey(direction);
                return new byte[0];
            case "nonce":
                party.setNonce(direction, Long.parseUnsignedLong((String) step.get("nonce")));
                return new byte[0];
            case "hash":
                return party.hash();
            case "remote":
                return party.remoteStatic();
            default:
                return new byte[0];
        }
    }

    private void compare(Map<String, Object> step, byte[] got) throws Exception {
        Object wanted = switch ((String) step.get("do")) {
            case "write" -> step.getOrDefault("is", message(step).get("message"));
            case "read" -> step.getOrDefault("payload", message(step).get("payload"));
            case "hash" -> group.get("hash");
            case "remote" -> step.get("is");
            default -> "";
        };
        byte[] right;
        if (wanted instanceof Map<?, ?> rule && rule.containsKey("sha256")) {
            right = hex(rule.get("sha256"));
            got = MessageDigest.getInstance("SHA-256").digest(got);
        } else {
            right = bytes(wanted);
        }
        if (!Arrays.equals(right, got)) {
            throw new Failed(step.get("do") + ": " + shown(got) + " in place of " + shown(right));
        }
    }

    private static String shown(byte[] data) {
        return data == null ? "nothing" : HexFormat.of().formatHex(data, 0, Math.min(data.length, MOST_SHOWN));
    }

    /** Takes a step; whether the test goes on after it. */
    private boolean step(Map<String, Object> step) throws Throwable {
        String role = (String) step.getOrDefault("role", test.get("role"));
        try {
            if (!parties.containsKey(role)) {
                parties.put(role, start(role));
            }
        } catch (Refused refused) {
            if (object(list(test.get("steps")).get(0)).containsKey("optional")) {
                return false;
            }
            throw new Failed("the start was refused: " + refused.getMessage());
        }
        byte[] got;
        try {
            got = call(parties.get(role), step);
        } catch (Refused refused) {
            if (!step.containsKey("refused")) {
                if (step.containsKey("optional")) {
                    return false;
                }
                throw new Failed(step.get("do") + " was refused: " + refused.getMessage());
            }
            if (refused.token != null && !Objects.equals(refused.token, step.getOrDefault("at", refused.token))) {
                throw new Failed("refused at " + refused.token + ", in place of " + step.get("at"));
            }
            return true;
        }
        if (step.containsKey("refused")) {
            String at = step.containsKey("at") ? " at " + step.get("at") : "";
            throw new Failed(step.get("do") + " was accepted, and has to be refused: " + step.get("refused") + at);
        }
        compare(step, got);
        return true;
    }

    /** Takes all steps; whether none was refused that may be. */
    private boolean run() throws Throwable {
        int number = 0;
        for (Object it : list(test.get("steps"))) {
            try {
                if (!step(object(it))) {
                    return false;
                }
            } catch (Failed failed) {
                throw new Failed("step " + number + ": " + failed.getMessage());
            }
            number++;
        }
        return true;
    }

    /** A test of a set-up, which is that of the test: if it is wrong, the start or a later step has to be refused. */
    private void runStart() throws Throwable {
        boolean isThrough;
        try {
            isThrough = run();
        } catch (Failed failed) {
            if (!"invalid".equals(test.get("result"))) {
                throw failed;
            }
            isThrough = true;
        }
        if (isThrough && "invalid".equals(test.get("result"))) {
            throw new Failed("the set-up was taken, and has to be refused: " + test.get("place"));
        }
    }

    private static String patternName(Map<String, Object> group) {
        String protocol = (String) group.get("protocol");
        return protocol == null ? ((String) group.get("type")).substring(5).toLowerCase() : protocol.split("_")[1];
    }

    private static Row outcome(Class<?> kind, Map<String, Object> group, Map<String, Object> test) {
        String pattern = patternName(group);
        try {
            switch ((String) group.get("type")) {
                case "NoiseHandshake" -> new Runner(kind, group, test).run();
                case "NoiseStart" -> new Runner(kind, test, test).runStart();
                default -> throw new NotSupported("frames are the caller's");
            }
        } catch (NotSupported why) {
            return new Row(test, pattern, "not run", why.getMessage());
        } catch (Failed why) {
            return new Row(test, pattern, "failed", why.getMessage());
        } catch (Throwable crash) {
            return new Row(test, pattern, "failed", "crashed: " + crash);
        }
        return new Row(test, pattern, "passed", "");
    }

    /** Prints a line for each flag, the tests that failed, and why some weren't run; how many failed. */
    private static int print(List<Row> rows, Map<String, Object> notes) {
        List<String> outcomes = List.of("passed", "failed", "not run");
        Map<String, int[]> flags = new LinkedHashMap<>();
        Map<String, Integer> reasons = new LinkedHashMap<>();
        int[] total = new int[outcomes.size()];
        for (Row row : rows) {
            int at = outcomes.indexOf(row.outcome);
            total[at]++;
            texts(row.test.get("flags")).forEach(it -> flags.computeIfAbsent(it, any -> new int[3])[at]++);
            if (at == 2) {
                reasons.merge(row.why, 1, Integer::sum);
            }
        }
        System.out.printf("%-28s %-7s %7s %7s %7s%n", "flag", "kind", "passed", "failed", "not run");
        flags.forEach((flag, it) -> System.out.printf(
                "%-28s %-7s %7d %7d %7d%n", flag, object(notes.get(flag)).get("kind"), it[0], it[1], it[2]));
        printFailures("accepted, and has to be refused", true, rows, List.copyOf(flags.keySet()));
        printFailures("other failures", false, rows, List.copyOf(flags.keySet()));
        reasons.forEach((why, count) -> System.out.printf("not run %d: %s%n", count, why));
        System.out.printf("%d passed, %d failed, %d not run%n", total[0], total[1], total[2]);
        return total[1];
    }

    /** Prints tests that failed, by their first flag: those that accept what has to be refused, or all others. */
    private static void printFailures(String head, boolean isAccepted, List<Row> rows, List<String> flags) {
        List<Row> some = rows.stream()
                .filter(it -> it.outcome.equals("failed") && it.why.contains("and has to be refused") == isAccepted)
                .sorted(Comparator.comparingInt(it -> flags.indexOf(texts(it.test.get("flags")).get(0))))
                .toList();
        if (!some.isEmpty()) {
            System.out.printf("%s: %d%n", head, some.size());
        }
        for (Row row : some) {
            System.out.printf(
                    "failed %d %s %s: %s: %s%n", row.test.get("tcId"), row.pattern,
                    String.join(",", texts(row.test.get("flags"))), row.test.get("comment"), row.why);
        }
    }

    private static String quoted(String text) {
        String made = text.replace("&", "&amp;").replace("<", "&lt;").replace(">", "&gt;").replace("\"", "&quot;");
        return '"' + made + '"';
    }

    private static String junit(String name, List<Row> rows) {
        StringBuilder made = new StringBuilder("<?xml version=\"1.0\" encoding=\"UTF-8\"?>\n");
        long failures = rows.stream().filter(it -> it.outcome.equals("failed")).count();
        long skipped = rows.stream().filter(it -> it.outcome.equals("not run")).count();
        made.append(String.format(
                "<testsuite name=%s tests=\"%d\" failures=\"%d\" skipped=\"%d\">%n", quoted(name), rows.size(), failures,
                skipped));
        for (Row row : rows) {
            String title = row.test.get("tcId") + " " + row.pattern + ": " + row.test.get("comment");
            String inside = switch (row.outcome) {
                case "failed" -> "<failure message=" + quoted(row.why) + "/>";
                case "not run" -> "<skipped message=" + quoted(row.why) + "/>";
                default -> "";
            };
            made.append(String.format(
                    "  <testcase classname=%s name=%s>%s</testcase>%n", quoted(texts(row.test.get("flags")).get(0)),
                    quoted(title), inside));
        }
        return made + "</testsuite>\n";
    }

    /** A small reader of JSON: enough for the suite. */
    private static final class Json {
        private final String text;
        private int at;

        Json(String text) {
            this.text = text;
        }

        private char next() {
            while (Character.isWhitespace(text.charAt(at))) {
                at++;
            }
            return text.charAt(at);
        }

        private boolean took(char mark) {
            boolean is = next() == mark;
            at += is ? 1 : 0;
            return is;
        }

        private String string() {
            StringBuilder made = new StringBuilder();
            next();
            while (text.charAt(++at) != '"') {
                at += text.charAt(at) == '\\' ? 1 : 0;
                made.append(text.charAt(at));
            }
            at++;
            return made.toString();
        }

        Object value() {
            switch (next()) {
                case '"':
                    return string();
                case '{':
                    Map<String, Object> members = new LinkedHashMap<>();
                    for (at++; !took('}'); took(',')) {
                        String key = string();
                        took(':');
                        members.put(key, value());
                    }
                    return members;
                case '[':
                    List<Object> items = new ArrayList<>();
                    for (at++; !took(']'); took(',')) {
                        items.add(value());
                    }
                    return items;
                case 't':
                    at += "true".length();
                    return true;
                default:
                    int from = at;
                    while (Character.isDigit(text.charAt(at))) {
                        at++;
                    }
                    return new BigInteger(text.substring(from, at)).longValueExact();
            }
        }
    }

    /** The words of the command line name nothing that can be run. */
    private static final class Unusable extends Exception {
        private static final long serialVersionUID = 1;

        Unusable(String why) {
            super(why);
        }
    }

    /** Runs the tests that have one of the words, or all if there is none. */
    private static List<Row> rows(Class<?> kind, Map<String, Object> suite, List<String> only) throws Unusable {
        List<Row> rows = new ArrayList<>();
        Set<String> found = new HashSet<>();
        for (Object group : list(suite.get("testGroups"))) {
            for (Object test : list(object(group).get("tests"))) {
                List<String> has = new ArrayList<>(texts(object(test).get("flags")));
                has.add(object(test).get("tcId").toString());
                has.add(patternName(object(group)));
                has.retainAll(only);
                found.addAll(has);
                if (only.isEmpty() || !has.isEmpty()) {
                    rows.add(outcome(kind, object(group), object(test)));
                }
            }
        }
        for (String word : only) {
            if (!found.contains(word)) {
                throw new Unusable("no test has the number, pattern or flag " + word);
            }
        }
        return rows;
    }

    private static int run(List<String> words) throws Unusable, IOException, ClassNotFoundException {
        int at = words.indexOf("--only");
        List<String> files = new ArrayList<>(words);
        List<String> only = List.of();
        if (at >= 0 && at + 1 < words.size()) {
            only = List.of(words.get(at + 1).split(","));
            files.subList(at, at + 2).clear();
        }
        if (files.size() != 2 && files.size() != 3) {
            throw new Unusable(USAGE);
        }
        Class<?> kind = Class.forName(files.get(0));
        Map<String, Object> suite = object(new Json(Files.readString(Path.of(files.get(1)))).value());
        List<Row> rows = rows(kind, suite, only);
        int failed = print(rows, object(suite.get("notes")));
        if (files.size() == 3) {
            Files.writeString(Path.of(files.get(2)), junit(files.get(0), rows), StandardCharsets.UTF_8);
        }
        return failed > 0 ? 1 : 0;
    }

    public static void main(String[] words) {
        if (List.of(words).contains("--help") || List.of(words).contains("-h")) {
            System.out.println(USAGE);
            return;
        }
        try {
            System.exit(run(List.of(words)));
        } catch (Unusable why) {
            System.err.println(why.getMessage());
        } catch (IOException | ClassNotFoundException error) {
            System.err.println("Runner: " + error);
        }
        System.exit(2);
    }
}
