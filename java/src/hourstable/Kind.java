package hourstable;

/** A kind of leases. */
public enum Kind {
    GUARD(1),
    BRIDGE(2);

    final int number;

    Kind(int number) {
        this.number = number;
    }

    static Kind of(long number) {
        return number == GUARD.number ? GUARD : BRIDGE;
    }
}
