package bcsproved;

import java.math.BigInteger;
import java.util.Arrays;

/** Integers of 256 bits in two's complement, with the lowest byte first. */
final class LittleEndian {
    private LittleEndian() {}

    static byte[] bytes(BigInteger x) {
        byte[] big = x.toByteArray();
        byte[] out = new byte[Formats.ADDRESS_LENGTH];
        Arrays.fill(out, (byte) (x.signum() < 0 ? -1 : 0));
        for (int i = 0; i < out.length && i < big.length; i++) {
            out[i] = big[big.length - 1 - i];
        }
        return out;
    }

    static BigInteger integer(byte[] bytes, boolean isSigned) {
        byte[] big = new byte[bytes.length];
        for (int i = 0; i < big.length; i++) {
            big[i] = bytes[bytes.length - 1 - i];
        }
        return isSigned ? new BigInteger(big) : new BigInteger(1, big);
    }
}
