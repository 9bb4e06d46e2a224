package hourstable;

/**
 * What a store keeps for one key: the greatest fencing token with which it accepted a write. It is kept with what was
 * written, in one transaction. One thread at a time uses it.
 */
public final class Fence {
    private final byte[] greatest;

    /** The fence of a key before its first write. It accepts every token. */
    public Fence() {
        this(Token.of(new byte[Token.LENGTH]));
    }

    /** The fence of a key with the greatest token that a store kept. */
    public Fence(Token greatest) {
        this.greatest = greatest.bytes();
    }

    /** The greatest token with which a write was accepted. */
    public Token greatest() {
        return Token.of(greatest);
    }

    /**
     * Offers a write with a token, and returns whether it is accepted: then the token is the greatest. A new owner offers its
     * token before it reads: until then a late write of an earlier owner may be accepted.
     */
    public boolean accept(Token token) {
        return Native.fenceAccept(greatest, token.bytes()) == 0;
    }
}
