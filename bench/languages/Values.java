import bcsproved.Bcs;
import bcsproved.BcsException;
import bcsproved.Names;
import bcsproved.Registry;
import com.sun.management.OperatingSystemMXBean;
import java.io.ByteArrayOutputStream;
import java.lang.management.ManagementFactory;
import java.math.BigInteger;
import java.nio.ByteBuffer;
import java.nio.ByteOrder;
import java.nio.charset.StandardCharsets;
import java.nio.file.Files;
import java.nio.file.Path;
import java.util.ArrayList;
import java.util.Arrays;
import java.util.HexFormat;
import java.util.List;
import java.util.concurrent.Callable;
import java.util.function.Supplier;

/** Times the calls of bindings/java for bench/values.py: {@code java Values EXAMPLES}. */
public final class Values {
    private static final int RUNS = 7;
    private static final long RUN = 300_000_000; // nanoseconds that a run takes. The clock ticks every 10,000,000
    private static final long WARMING = 1_500_000_000;
    private static final byte ENTRY_FUNCTION = 2;
    private static final byte STRUCT = 7;
    private static final OperatingSystemMXBean SYSTEM = ManagementFactory.getPlatformMXBean(OperatingSystemMXBean.class);
    private static Object last; // so that no call is left out

    record Module(byte[] address, String name) {}

    /** Of its variants, those that this wallet knows. */
    sealed interface Tag {
        record Struct(StructTag tag) implements Tag {}
    }

    record StructTag(byte[] address, String module, String name, List<Tag> typeArgs) {}

    sealed interface Payload {
        record EntryFunction(Call call) implements Payload {}
    }

    record Call(Module module, String function, List<Tag> tyArgs, List<byte[]> args) {}

    record Transaction(byte[] sender, BigInteger sequenceNumber, Payload payload, BigInteger maxGasAmount, BigInteger gasUnitPrice,
            BigInteger expirationTimestampSecs, @Bcs("chain_id") int chainId) {}

    /** A codec for this one type, as it is written by hand. It checks less. */
    private static final class PlainWriter {
        private final ByteArrayOutputStream out = new ByteArrayOutputStream(512);

        void length(int length) {
            for (; length >= 0x80; length >>>= 7) {
                out.write(length & 0x7f | 0x80);
            }
            out.write(length);
        }

        void bytes(byte[] bytes) {
            length(bytes.length);
            out.writeBytes(bytes);
        }

        void text(String text) {
            bytes(text.getBytes(StandardCharsets.UTF_8));
        }

        void number(BigInteger number) {
            for (long rest = number.longValue(), i = 0; i < 8; i++, rest >>>= 8) {
                out.write((int) rest);
            }
        }

        void tags(List<Tag> tags) {
            length(tags.size());
            for (Tag tag : tags) {
                StructTag struct = ((Tag.Struct) tag).tag();
                out.write(STRUCT);
                out.writeBytes(struct.address());
                text(struct.module());
                text(struct.name());
                tags(struct.typeArgs());
            }
        }

        byte[] transaction(Transaction value) {
            Call call = ((Payload.EntryFunction) value.payload()).call();
            out.writeBytes(value.sender());
            number(value.sequenceNumber());
            out.write(ENTRY_FUNCTION);
            out.writeBytes(call.module().address());
            text(call.module().name());
            text(call.function());
            tags(call.tyArgs());
            length(call.args().size());
            call.args().forEach(this::bytes);
            number(value.maxGasAmount());
            number(value.gasUnitPrice());
            number(value.expirationTimestampSecs());
            out.write(value.chainId());
            return out.toByteArray();
        }
    }

    private static final class PlainReader {
        private final ByteBuffer data;

        PlainReader(byte[] data) {
            this.data = ByteBuffer.wrap(data).order(ByteOrder.LITTLE_ENDIAN);
        }

        int length() {
            int length = 0;
            for (int shift = 0; shift < 32; shift += 7) {
                byte next = data.get();
                length |= (next & 0x7f) << shift;
                if (next >= 0) {
                    return length;
                }
            }
            throw new IllegalArgumentException("a long length");
        }

        byte[] take(int length) {
            byte[] bytes = new byte[length];
            data.get(bytes);
            return bytes;
        }

        byte[] bytes() {
            return take(length());
        }

        String text() {
            return new String(bytes(), StandardCharsets.UTF_8);
        }

        BigInteger number() {
            long number = data.getLong();
            return number >= 0 ? BigInteger.valueOf(number) : new BigInteger(Long.toUnsignedString(number));
        }

        void variant(byte number) {
            if (data.get() != number) {
                throw new IllegalArgumentException("another variant");
            }
        }

        <T> List<T> list(Supplier<T> item) {
            List<T> items = new ArrayList<>();
            for (int left = length(); left > 0; left--) {
                items.add(item.get());
            }
            return items;
        }

        Tag tag() {
            variant(STRUCT);
            return new Tag.Struct(new StructTag(take(32), text(), text(), list(this::tag)));
        }

        Payload payload() {
            variant(ENTRY_FUNCTION);
            return new Payload.EntryFunction(new Call(new Module(take(32), text()), text(), list(this::tag), list(this::bytes)));
        }

        Transaction transaction() {
            return new Transaction(take(32), number(), payload(), number(), number(), number(), data.get() & 0xff);
        }

        void end() {
            if (data.hasRemaining()) {
                throw new IllegalArgumentException("more");
            }
        }
    }

    private static Transaction plainTransaction(byte[] data) {
        PlainReader reader = new PlainReader(data);
        Transaction value = reader.transaction();
        reader.end();
        return value;
    }

    private static byte[] plainBytes(byte[] value) {
        PlainWriter writer = new PlainWriter();
        writer.bytes(value);
        return writer.out.toByteArray();
    }

    private static byte[] plainBytesOf(byte[] data) {
        PlainReader reader = new PlainReader(data);
        byte[] bytes = reader.bytes();
        reader.end();
        return bytes;
    }

    private static long measure(int count, Callable<?> call) throws Exception {
        long start = SYSTEM.getProcessCpuTime();
        for (int i = 0; i < count; i++) {
            last = call.call();
        }
        return SYSTEM.getProcessCpuTime() - start;
    }

    /** Prints the microseconds of processor time for a call, the least of all runs. */
    private static void report(String name, Callable<?> call) throws Exception {
        for (long start = SYSTEM.getProcessCpuTime(); SYSTEM.getProcessCpuTime() - start < WARMING;) {
            measure(10, call);
        }
        int count = 1;
        while (measure(count, call) < RUN / 3) {
            count *= 2;
        }
        count = (int) (count * RUN / measure(count, call)) + 1;
        long least = Long.MAX_VALUE;
        for (int i = 0; i < RUNS; i++) {
            least = Math.min(least, measure(count, call));
        }
        System.out.println(name + " " + least / 1000.0 / count);
    }

    private static void require(boolean isRight) {
        if (!isRight) {
            throw new AssertionError("the codecs differ");
        }
    }

    /** The call, which must be refused. */
    private static Callable<?> refused(Callable<?> call) {
        return () -> {
            try {
                call.call();
            } catch (BcsException fault) {
                return fault;
            }
            throw new AssertionError("not refused");
        };
    }

    private static void transfer(Path examples) throws Exception {
        String format = "RawTransaction";
        byte[] chain = Files.readAllBytes(examples.resolve("aptos_registry.json"));
        String text = Files.readString(examples.resolve("aptos_transfer.json"));
        byte[] data = HexFormat.of().parseHex(Files.readString(examples.resolve("aptos_transfer.hex")).strip());
        String wrong = text.replace("\"chain_id\": 4", "\"chain_id\": -4");
        byte[] cut = Arrays.copyOf(data, data.length - 1);
        try (Registry registry = Registry.open(chain, Names.STANDARD.withAddresses("AccountAddress"))) {
            Transaction value = registry.decode(format, data, Transaction.class);
            Transaction wrongValue = new Transaction(value.sender(), value.sequenceNumber(), value.payload(), value.maxGasAmount(),
                    value.gasUnitPrice(), value.expirationTimestampSecs(), -4);
            require(Arrays.equals(registry.encode(format, value), data));
            require(Arrays.equals(new PlainWriter().transaction(plainTransaction(data)), data));
            report("transfer encode values", () -> registry.encode(format, value));
            report("transfer encode values-refused", refused(() -> registry.encode(format, wrongValue)));
            report("transfer encode text", () -> registry.encodeJson(format, text));
            report("transfer encode text-refused", refused(() -> registry.encodeJson(format, wrong)));
            report("transfer encode plain", () -> new PlainWriter().transaction(value));
            report("transfer decode values", () -> registry.decode(format, data, Transaction.class));
            report("transfer decode values-refused", refused(() -> registry.decode(format, cut, Transaction.class)));
            report("transfer decode text", () -> registry.decodeJson(format, data));
            report("transfer decode text-refused", refused(() -> registry.decodeJson(format, cut)));
            report("transfer decode plain", () -> plainTransaction(data));
        }
    }

    private static void megabyte() throws Exception {
        String format = "\"BYTES\"";
        byte[] value = new byte[1_000_000];
        for (int i = 0; i < value.length; i++) {
            value[i] = (byte) (i * 0x9e3779b1 >>> 24);
        }
        HexFormat hex = HexFormat.of();
        try (Registry registry = Registry.open("{}")) {
            byte[] data = registry.encode(format, value);
            String text = '"' + hex.formatHex(value) + '"';
            require(registry.decodeJson(format, data).equals(text));
            require(Arrays.equals(registry.decode(format, data, byte[].class), value) && Arrays.equals(plainBytes(value), data));
            report("bytes encode values", () -> registry.encode(format, value));
            report("bytes encode text", () -> registry.encodeJson(format, text));
            report("bytes encode plain", () -> plainBytes(value));
            report("bytes decode values", () -> registry.decode(format, data, byte[].class));
            report("bytes decode text", () -> registry.decodeJson(format, data));
            report("bytes decode plain", () -> plainBytesOf(data));
        }
    }

    public static void main(String[] arguments) throws Exception {
        transfer(Path.of(arguments[0]));
        megabyte();
    }
}
