package faults;

/** A throwable of the program's own, with a number. */
class Refusal extends RuntimeException {
    final int code;

    Refusal(int code) {
        this.code = code;
    }
}
