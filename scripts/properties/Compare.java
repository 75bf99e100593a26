import java.io.ByteArrayInputStream;
import java.io.ByteArrayOutputStream;
import java.io.IOException;
import java.nio.charset.StandardCharsets;
import java.nio.file.Files;
import java.nio.file.Path;
import java.util.ArrayList;
import java.util.Arrays;
import java.util.HexFormat;
import java.util.List;
import java.util.Map;
import java.util.Properties;
import java.util.Random;
import java.util.TreeMap;
import java.util.function.Predicate;
import java.util.regex.Matcher;
import java.util.regex.Pattern;

/**
 * Makes random properties texts, one a line in hexadecimal digits, and compares what java.util.Properties says of them
 * with the answers of the program props_read: the written form of what it read, or its refusal.
 */
public class Compare {
    /** What texts are made of: marks, white space, line ends, separators, and whole, short and faulty escapes. */
    static final String[] PIECES = {
        "\\", "\\\\", "\n", "\r", "\r\n", "\\\n", "\\\r\n  ", " ", "\t", "\f", "#", "!", "=", ":", "a", "b", "u", "t",
        "0", "\\t", "\\n", "\\r", "\\f", "\\u", "\\u0041", "\\u00e9", "\\u00E", "\\u003D", "\\u0020", "\\u00G1",
        "\\uD83D\\uDE00", "\\uD83D", "\\uDE00", "\u00e9", "\u00ff", "\u0000", "\u0085", "ab=1\n", "#c\\\n", "a=1\n",
    };

    /** A lone backslash, white space aside, before a line that begins with a mark: Java skips that line. */
    static final Pattern BEFORE_MARK = Pattern.compile("(^|[\\r\\n])[ \\t\\f]*\\\\(\\r\\n|\\r|\\n)[ \\t\\f]*[#!]");

    /**
     * A lone backslash, white space aside, at the text's end, or with one byte behind it that ends the line: Java gives the
     * pair of two empty texts.
     */
    static final Pattern AT_END = Pattern.compile("(^|[\\r\\n])[ \\t\\f]*\\\\[\\r\\n]?\\z");

    /** All pairs as they are read, also those whose key comes again. */
    static class Seen extends Properties {
        final List<String> texts = new ArrayList<>();

        @Override
        public synchronized Object put(Object key, Object value) {
            texts.add((String) key);
            texts.add((String) value);
            return super.put(key, value);
        }

        /** The last pair is that of two empty texts. */
        boolean endsEmpty() {
            int size = texts.size();
            return size > 0 && texts.get(size - 2).isEmpty() && texts.get(size - 1).isEmpty();
        }

        /** The pairs without the last one that was read. */
        Properties butLast() {
            Properties before = new Properties();
            for (int i = 0; i + 2 < texts.size(); i += 2) {
                before.setProperty(texts.get(i), texts.get(i + 1));
            }
            return before;
        }

        boolean hasHalf() {
            return texts.stream().anyMatch(Compare::isHalf);
        }
    }

    public static void main(String[] args) throws IOException {
        if (args[0].equals("make")) {
            make(Integer.parseInt(args[1]), Long.parseLong(args[2]));
        } else {
            System.exit(compare(Files.readAllLines(Path.of(args[1])), Files.readAllLines(Path.of(args[2]))));
        }
    }

    static void make(int count, long seed) {
        Random random = new Random(seed);
        StringBuilder out = new StringBuilder();
        for (int i = 0; i < count; i++) {
            StringBuilder text = new StringBuilder();
            for (int pieces = random.nextInt(13); pieces > 0; pieces--) {
                text.append(PIECES[random.nextInt(PIECES.length)]);
            }
            out.append(HexFormat.of().formatHex(text.toString().getBytes(StandardCharsets.ISO_8859_1))).append('\n');
        }
        System.out.print(out);
    }

    /** The number of differences that have no name, at most 1. */
    static int compare(List<String> texts, List<String> answers) throws IOException {
        if (texts.size() != answers.size()) {
            System.out.println(texts.size() + " texts, but " + answers.size() + " answers");
            return 1;
        }
        Map<String, Integer> kinds = new TreeMap<>();
        int unnamed = 0;
        for (int i = 0; i < texts.size(); i++) {
            String kind = kind(HexFormat.of().parseHex(texts.get(i)), answers.get(i));
            kinds.merge(kind, 1, Integer::sum);
            if (kind.equals("unnamed")) {
                unnamed++;
                System.out.println("unnamed: " + texts.get(i) + " gives " + answers.get(i));
            }
        }
        System.out.println(texts.size() + " texts: " + kinds);
        return unnamed == 0 ? 0 : 1;
    }

    /** How the answer agrees with Java's, or the name of the difference. */
    static String kind(byte[] bytes, String answer) throws IOException {
        String text = text(bytes);
        String kind = kindOf(text, answer);
        if (!kind.equals("unnamed")) {
            return kind;
        }
        // A backslash before the mark means the same here, and has Java read the line. Each one moves the places behind it.
        Matcher marks = BEFORE_MARK.matcher(text);
        StringBuilder escaped = new StringBuilder();
        int from = 0, moved = 0, at = place(answer);
        while (from < text.length() && marks.find(from)) {
            int mark = marks.end() - 1;
            escaped.append(text, from, mark).append('\\');
            moved += mark < at ? 1 : 0;
            from = mark;
        }
        escaped.append(text.substring(from));
        String other = at < 0 ? answer : answer.substring(0, answer.indexOf(' ') + 1) + (at + moved);
        return kindOf(escaped.toString(), other).equals("unnamed") ? "unnamed" : "lone backslash before a mark";
    }

    /** How the answer agrees with Java's as Java reads the text. */
    static String kindOf(String text, String answer) throws IOException {
        Seen java = read(text);
        int at = place(answer);
        if (answer.startsWith("BadSurrogate ") && isFirst(text, at, seen -> seen != null && !seen.hasHalf())) {
            return java == null ? "surrogate alone, and a bad escape after it" : "surrogate alone";
        }
        if (answer.startsWith("BadEscape ") && java == null && isFirst(text, at, seen -> seen != null)) {
            return "bad escape in both";
        }
        if (!answer.startsWith("Ok ") || java == null) {
            return "unnamed";
        }
        String written = text(HexFormat.of().parseHex(answer.substring(3).trim()));
        if (written.equals(written(java))) {
            return "same pairs";
        }
        boolean more = AT_END.matcher(text).find() && java.endsEmpty();
        return more && written.equals(written(java.butLast())) ? "lone backslash at the end" : "unnamed";
    }

    /** At the place begins the first escape that Java's reading doesn't pass: the text before it does, and nothing longer. */
    static boolean isFirst(String text, int at, Predicate<Seen> passes) throws IOException {
        boolean first = text.startsWith("\\u", at) && passes.test(read(text.substring(0, at)));
        for (int end = at + 2; first && end <= text.length(); end++) {
            first = !passes.test(read(text.substring(0, end)));
        }
        return first;
    }

    static String text(byte[] bytes) {
        return new String(bytes, StandardCharsets.ISO_8859_1);
    }

    /** The place that a refusal tells, or -1. */
    static int place(String answer) {
        return answer.startsWith("Bad") ? Integer.parseInt(answer.substring(answer.indexOf(' ') + 1).trim()) : -1;
    }

    /** What Java reads, or null where it refuses the text. */
    static Seen read(String text) throws IOException {
        Seen seen = new Seen();
        try {
            seen.load(new ByteArrayInputStream(text.getBytes(StandardCharsets.ISO_8859_1)));
        } catch (IllegalArgumentException e) {
            return null;
        }
        return seen;
    }

    /** The lines that Java stores for single pairs, in byte order of their keys in UTF-8, with a line feed behind each. */
    static String written(Properties pairs) throws IOException {
        Map<byte[], String> lines = new TreeMap<>(Arrays::compareUnsigned);
        for (String key : pairs.stringPropertyNames()) {
            Properties one = new Properties();
            one.setProperty(key, pairs.getProperty(key));
            ByteArrayOutputStream out = new ByteArrayOutputStream();
            one.store(out, null);
            List<String> stored = text(out.toByteArray()).lines().toList();
            lines.put(key.getBytes(StandardCharsets.UTF_8), stored.get(stored.size() - 1) + "\n");
        }
        return String.join("", lines.values());
    }

    /** A half of a surrogate pair stands alone. */
    static boolean isHalf(String text) {
        return text.codePoints().anyMatch(c -> 0xD800 <= c && c <= 0xDFFF);
    }
}
