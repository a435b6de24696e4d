import java.nio.charset.StandardCharsets;
import java.nio.file.Files;
import java.nio.file.Path;
import java.util.ArrayList;
import java.util.List;

/**
 * Calls on Java's threads, whose stacks have 1 MiB unless a program says otherwise. {@code java Deep LIBRARY EXAMPLES}
 * tries values with 500 open containers, which one such stack may be too small for, and an ordinary one.
 */
public final class Deep {
    private static final int DONE = 0, STACK = 11, TO_BCS = 2, FROM_BCS = 3, SCAN = 6;
    private static final int CONTAINERS = 500, LEVELS = 31;

    /** Asks on a handle that is shared, and returns the status. Output that doesn't fit isn't an error here. */
    private static native int ask(long handle, int call, byte[] format, byte[] input);

    /** Opens a registry. */
    private static native long open(byte[] registry);

    private record Question(String name, long handle, int call, byte[] format, byte[] input, boolean isDeep) {}

    private static byte[] bytes(String text) {
        return text.getBytes(StandardCharsets.UTF_8);
    }

    /** Containers in one another, with levels between them that are a byte each; the innermost one holds nothing. */
    private static Question chain(String name, String before, String behind) {
        String format = before.repeat(LEVELS) + "{\"TYPENAME\":\"C\"}" + behind.repeat(LEVELS);
        byte[] input = new byte[LEVELS * (CONTAINERS - 1) + 1];
        java.util.Arrays.fill(input, 0, input.length - 1, (byte) 1);
        long handle = open(bytes("{\"C\":{\"NEWTYPESTRUCT\":" + format + "}}"));
        return new Question(name, handle, SCAN, bytes("{\"TYPENAME\":\"C\"}"), input, true);
    }

    private static List<Question> questions(Path examples) throws Exception {
        List<Question> questions = new ArrayList<>();
        questions.add(chain("options", "{\"OPTION\":", "}"));
        questions.add(chain("lists", "{\"SEQ\":", "}"));
        questions.add(chain("maps", "{\"MAP\":{\"KEY\":\"UNIT\",\"VALUE\":", "}}"));
        long aptos = open(Files.readAllBytes(examples.resolve("aptos_registry.json")));
        byte[] format = bytes("{\"TYPENAME\":\"RawTransaction\"}");
        byte[] text = Files.readAllBytes(examples.resolve("aptos_transfer.json"));
        byte[] coded = java.util.HexFormat.of().parseHex(Files.readString(examples.resolve("aptos_transfer.hex")).strip());
        questions.add(new Question("encode a transfer", aptos, TO_BCS, format, text, false));
        questions.add(new Question("decode a transfer", aptos, FROM_BCS, format, coded, false));
        questions.add(new Question("scan a transfer", aptos, SCAN, format, coded, false));
        return questions;
    }

    private static int overflows = 0;

    private static int recurse(int depth) {
        return 1 + recurse(depth + 1);
    }

    /** Asks all questions, and then out of stack, which Java notices by the pages that it protects at the stack's end. */
    private static void run(List<Question> questions, boolean hasEnough, List<String> wrong) {
        for (Question question : questions) {
            int status = ask(question.handle, question.call, question.format, question.input);
            if (status != DONE && (status != STACK || hasEnough || !question.isDeep)) {
                wrong.add(question.name + ": status " + status);
            }
        }
        try {
            recurse(0);
        } catch (StackOverflowError error) {
            overflows++;
        }
    }

    public static void main(String[] arguments) throws Exception {
        System.load(arguments[0]);
        List<Question> questions = questions(Path.of(arguments[1]));
        List<String> wrong = new ArrayList<>();
        run(questions, false, wrong);
        long[] sizes = {0, 256 << 10, 512 << 10, 2 << 20, 16 << 20};
        for (long size : sizes) {
            Thread thread = new Thread(null, () -> run(questions, size == 16 << 20, wrong), "stack of " + size, size);
            thread.start();
            thread.join();
        }
        if (!wrong.isEmpty() || overflows != sizes.length + 1) {
            throw new AssertionError(overflows + " threads ran out of stack as they should; wrong: " + wrong);
        }
        System.out.println("java: " + (sizes.length + 1) + " threads, " + questions.size() + " calls on each");
    }
}
