import bcsproved.Bcs;
import java.math.BigInteger;
import java.util.List;
import java.util.Map;
import java.util.Optional;

/** A registry, and Java types for its containers, with others that look like them. */
final class Samples {
    static final String REGISTRY = """
            {"P":{"STRUCT":[{"to":"STR"},{"amount":"U64"}]},"N":{"NEWTYPESTRUCT":"U8"},"S":"UNITSTRUCT",
             "E":{"ENUM":{"0":{"Dot":"UNIT"},"1":{"Num":{"NEWTYPE":"U64"}},"2":{"Pair":{"TUPLE":["U8","U8"]}},
                          "3":{"Named":{"STRUCT":[{"r":"U8"}]}}}},
             "address":{"NEWTYPESTRUCT":{"TUPLEARRAY":{"CONTENT":"U8","SIZE":32}}},
             "u256":{"NEWTYPESTRUCT":{"TUPLEARRAY":{"CONTENT":"U8","SIZE":32}}},
             "i256":{"NEWTYPESTRUCT":{"TUPLEARRAY":{"CONTENT":"U8","SIZE":32}}},
             "L":{"STRUCT":[{"head":"U8"},{"next":{"OPTION":{"TYPENAME":"L"}}}]},"C":{"NEWTYPESTRUCT":{"TYPENAME":"C"}},
             "Tree":{"ENUM":{"0":{"Leaf":"UNIT"},"1":{"Fork":{"TUPLE":[{"TYPENAME":"Tree"},{"TYPENAME":"Tree"}]}},
                             "2":{"Odd":{"NEWTYPE":"F32"}}}},
             "All":{"STRUCT":[{"max_gas":"U32"},{"memo":{"OPTION":"STR"}},{"hash":"BYTES"},{"sizes":{"SEQ":"U16"}},
                              {"shares":{"MAP":{"KEY":{"TYPENAME":"address"},"VALUE":{"TYPENAME":"u256"}}}},
                              {"pair":{"TUPLE":["I8",{"TYPENAME":"S"}]}},{"shape":{"TYPENAME":"E"}},
                              {"next":{"OPTION":{"TYPENAME":"All"}}}]}}""";

    private Samples() {}

    public record Pay(String to, BigInteger amount) {}

    record Signed(String to, long amount) {}

    record Tagged(@Bcs("amount") int n, @Bcs("to") String whom) {}

    record Swapped(@Bcs("amount") long to, @Bcs("to") String amount) {}

    record Fewer(String to) {}

    record More(String to, long amount, String memo) {}

    record Twice(String to, long amount, @Bcs("amount") long other) {}

    record Elements(@Bcs("0") int a, @Bcs("1") String b) {}

    record Untagged(int a, String b) {}

    record WrongTag(@Bcs("To") String to, long amount) {}

    record Generic<T>(T to, long amount) {}

    record Nothing() {}

    /** The variants of E. */
    sealed interface Shape {}

    record Dot() implements Shape {}

    record Num(BigInteger value) implements Shape {}

    record Pair(@Bcs("0") int x, @Bcs("1") int y) implements Shape {}

    @Bcs("Named")
    record Radius(short r) implements Shape {}

    /** Some variants of E. */
    sealed interface Some permits Num2 {}

    @Bcs("Num")
    record Num2(BigInteger value) implements Some {}

    /** A variant that E doesn't have. */
    sealed interface Another permits Square {}

    record Square(int side) implements Another {}

    /** Two records for one variant. */
    sealed interface Doubled permits One, Other {}

    @Bcs("Num")
    record One(BigInteger value) implements Doubled {}

    @Bcs("Num")
    record Other(BigInteger value) implements Doubled {}

    record All(long maxGas, Optional<String> memo, byte[] hash, int[] sizes, Map<String, BigInteger> shares, PairOfAll pair, Shape shape,
            Optional<All> next) {}

    record PairOfAll(@Bcs("0") byte first, @Bcs("1") Nothing second) {}

    /** A bean for P, with a property that can only be read. */
    public static class PayBean {
        private String to = "";
        private long amount;

        public String getTo() {
            return to;
        }

        public void setTo(String to) {
            this.to = to;
        }

        public long getAmount() {
            return amount;
        }

        public void setAmount(long amount) {
            this.amount = amount;
        }

        public String getTitle() {
            return to + amount;
        }

        static PayBean of(String to, long amount) {
            PayBean bean = new PayBean();
            bean.to = to;
            bean.amount = amount;
            return bean;
        }
    }

    /** A bean with one property more. */
    public static class MemoBean extends PayBean {
        private String memo = "";

        public String getMemo() {
            return memo;
        }

        public void setMemo(String memo) {
            this.memo = memo;
        }
    }

    /** A bean whose numbers all fit. */
    public static class WideBean {
        private String whom;
        private BigInteger amount;

        @Bcs("to")
        public String getWhom() {
            return whom;
        }

        public void setWhom(String whom) {
            this.whom = whom;
        }

        public BigInteger getAmount() {
            return amount;
        }

        public void setAmount(BigInteger amount) {
            this.amount = amount;
        }
    }

    record Beans(List<PayBean> payments) {}

    /** An integer that lies. */
    static final class Lie extends BigInteger {
        private static final long serialVersionUID = 1;

        Lie() {
            super("7");
        }
    }

    enum Colour { RED }
}
