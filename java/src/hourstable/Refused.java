package hourstable;

import java.util.Locale;

/**
 * The exception of every call that is not done: the name of its code, and the numbers that the code comes with. Its message
 * is that of scripts, such as {@code not-owned 3}. It has no stack trace, since a key that is not served is no fault.
 */
public final class Refused extends Exception {
    private static final long serialVersionUID = 1;

    private final int code;
    private final String name;
    private final long[] told;

    private Refused(int code, String name, String message, long[] told) {
        super(message, null, false, false);
        this.code = code;
        this.name = name;
        this.told = told;
    }

    /** Returns if the code is that of a call that is done, and throws otherwise. */
    static void check(int code, long[] told) throws Refused {
        if (code == 0) {
            return;
        }
        String name = Native.codeName(code);
        throw new Refused(code, name, message(code, name, told), told);
    }

    private static String message(int code, String name, long[] told) {
        switch (name) {
            case "unknown":
                return "code " + code;
            case "HS_OLD_GENERATION":
                return "old " + Long.toUnsignedString(told[1]);
            case "HS_NOT_OWNED", "HS_STALE_BASE":
                return word(name) + " " + Long.toUnsignedString(told[1]);
            case "HS_OLD", "HS_VERSION", "HS_NOT_HOLDER":
                return word(name) + " " + Long.toUnsignedString(told[0]);
            case "HS_JOB_HELD", "HS_GRACE", "HS_NOT_YET":
                return word(name) + " " + Long.toUnsignedString(told[4]);
            case "HS_HELD":
                String kind = Kind.of(told[2]).name().toLowerCase(Locale.ROOT);
                return String.join(" ", "held", Long.toString(told[3]), kind, Long.toUnsignedString(told[0]));
            default:
                return word(name);
        }
    }

    private static String word(String name) {
        return name.substring("HS_".length()).toLowerCase(Locale.ROOT).replace('_', '-');
    }

    /** The code, as in the header. */
    public int code() {
        return code;
    }

    /** The name of the code in the header, such as {@code HS_TOO_LATE}. */
    public String name() {
        return name;
    }

    /** The number of a grant or a term, or the version of a message; 0 if the code sets none. */
    public long number() {
        return told[0];
    }

    /** The generation of a lease or an assignment; 0 if the code sets none. */
    public long generation() {
        return told[1];
    }

    /** A task; 0 if the code sets none. */
    public long task() {
        return told[3];
    }

    /** A reading, in ticks; 0 if the code sets none. */
    public long until() {
        return told[4];
    }

    /** Where a key is denied, the greatest generation of the held leases that cover it, live or ended; 0 if none does. */
    public long covering() {
        return told.length > 5 ? told[5] : 0;
    }
}
