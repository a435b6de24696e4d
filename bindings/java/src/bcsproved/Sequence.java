package bcsproved;

import java.lang.reflect.Array;
import java.util.List;

/** The elements of a list or an array. */
final class Sequence {
    /** Visits an element. */
    interface Visitor {
        void visit(int index, Object element);
    }

    private Sequence() {}

    /** Visits each element, and returns their number. What is rejected is rejected at its index. */
    static int each(Object sequence, Visitor visitor) {
        int index = 0;
        try {
            if (sequence instanceof List<?> list) {
                for (Object element : list) {
                    visitor.visit(index, element);
                    index++;
                }
                return index;
            }
            for (int length = Array.getLength(sequence); index < length; index++) {
                visitor.visit(index, Array.get(sequence, index));
            }
            return index;
        } catch (Mismatch e) {
            throw e.under(index);
        }
    }
}
