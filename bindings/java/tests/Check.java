import bcsproved.BcsException;
import bcsproved.BcsException.Kind;
import java.lang.reflect.Array;
import java.nio.ByteBuffer;
import java.util.ArrayList;
import java.util.HexFormat;
import java.util.List;
import java.util.Objects;
import java.util.Optional;

/** What the tests compare with. */
class Check {
    interface Test {
        void run() throws Exception;
    }

    static byte[] unhex(String digits) {
        return HexFormat.of().parseHex(digits.strip());
    }

    static String shown(Object value) {
        if (value instanceof ByteBuffer buffer) {
            return "buffer " + HexFormat.of().formatHex(buffer.array());
        }
        if (value instanceof Samples.PayBean bean) {
            return bean.getTitle();
        }
        if (value != null && value.getClass().isArray()) {
            List<String> elements = new ArrayList<>();
            for (int i = 0; i < Array.getLength(value); i++) {
                elements.add(shown(Array.get(value, i)));
            }
            return value.getClass().componentType().getSimpleName() + elements;
        }
        if (value instanceof List<?> list) {
            return list.stream().map(Check::shown).toList().toString();
        }
        return value instanceof Optional<?> option && option.isPresent() ? "some " + shown(option.get()) : String.valueOf(value);
    }

    static void equal(Object is, Object wanted) {
        if (!Objects.equals(is, wanted)) {
            throw new AssertionError(is + " instead of " + wanted);
        }
    }

    static <E extends Throwable> E thrown(Class<E> type, Test test) {
        try {
            test.run();
        } catch (Throwable e) {
            if (type.isInstance(e)) {
                return type.cast(e);
            }
            if (e instanceof IllegalStateException closed) {
                throw closed; // which a test of threads allows
            }
            throw new AssertionError("not " + type, e);
        }
        throw new AssertionError("no " + type);
    }

    static void refused(Kind kind, String reason, long place, String at, String message, Test test) throws BcsException {
        BcsException e = thrown(BcsException.class, test);
        if (e.kind() == Kind.STACK && kind != Kind.STACK) {
            throw e; // which some tests allow
        }
        equal(List.of(e.kind(), String.valueOf(e.reason()), e.place()), List.of(kind, String.valueOf(reason), place));
        equal(e.at(), at);
        equal(e.message(), message);
    }
}
