package recorder;

/** An operation of a task: a call of the API, or the task's end. */
final class Op {
    enum Kind { OPEN, FORK, JOIN, CLOSE, CANCELLED, STATE, GET, EXCEPT, BIND, UNBIND, READ, BOUND, ORELSE, INTERRUPTED, END }

    final Kind kind;
    final String site;
    RecordedScope scope;
    RecordedTask subtask;      // of a fork or a question
    Object key, value;         // of a scoped value; what the call gave
    String way;                // of a join: ok, failed, timeout, interrupted; of an end: ret, fail; of a question: late, other
    String fault;              // the simple name of the exception of a misuse
    boolean isTwo;             // a close that waited
    int times = 1;             // how often the same question had the same answer
    int at;                    // which event of its recording it is

    Op(Kind kind, String site) {
        this.kind = kind;
        this.site = site;
    }

    Op(Kind kind, String site, RecordedScope scope) {
        this(kind, site);
        this.scope = scope;
    }

    /** Is this the same question as another one, with the same answer? */
    boolean repeats(Op last) {
        return last != null && fault == null && last.fault == null && last.kind == kind && last.site.equals(site) && last.key == key
                && last.scope == scope && last.value == value && (isAboutKey() || value == Boolean.FALSE && isAboutCancel());
    }

    private boolean isAboutKey() {
        return kind == Kind.READ || kind == Kind.BOUND || kind == Kind.ORELSE;
    }

    private boolean isAboutCancel() {
        return kind == Kind.CANCELLED || kind == Kind.INTERRUPTED;
    }
}
