package hourstable;

import java.nio.ByteBuffer;
import java.util.Arrays;
import java.util.HexFormat;

/**
 * A fencing token, which a task sends to a store with each write of a key: the epoch of the job, the greatest generation of
 * the held leases that cover the key, and the life of the task, each with the high byte first. A store keeps the greatest
 * token of the key, and refuses a write with a lower one. Tokens are compared as bytes from 0 to 255, and so are their texts,
 * which are hexadecimal.
 */
public final class Token implements Comparable<Token> {
    static final int LENGTH = 16;

    private final byte[] bytes;

    private Token(byte[] bytes) {
        if (bytes.length != LENGTH) {
            throw new IllegalArgumentException("a token of " + bytes.length + " bytes is none of " + LENGTH);
        }
        this.bytes = bytes;
    }

    /** The token of 16 bytes. */
    public static Token of(byte[] bytes) {
        return new Token(bytes.clone());
    }

    /** The token of an epoch, a generation and a life, all unsigned. */
    public static Token of(int epoch, long generation, int life) {
        return new Token(ByteBuffer.allocate(LENGTH).putInt(epoch).putLong(generation).putInt(life).array());
    }

    /** The token of a text that toString made. */
    public static Token parse(String text) {
        return new Token(HexFormat.of().parseHex(text));
    }

    /** The 16 bytes. */
    public byte[] bytes() {
        return bytes.clone();
    }

    @Override
    public int compareTo(Token other) {
        return Arrays.compareUnsigned(bytes, other.bytes);
    }

    @Override
    public boolean equals(Object other) {
        return other instanceof Token token && Arrays.equals(bytes, token.bytes);
    }

    @Override
    public int hashCode() {
        return Arrays.hashCode(bytes);
    }

    /** In hexadecimal, 32 characters. */
    @Override
    public String toString() {
        return HexFormat.of().formatHex(bytes);
    }
}
