/** Counts steps, where the programs were changed to tell them (tools/Steps.java). */
public final class StepCount {
    /** Whether a class of the program couldn't be changed. */
    public static boolean isLost;
    private static long steps;

    private StepCount() {
    }

    public static void tick() {
        steps++;
    }

    /** The steps since the last call of this, or 0 where they aren't known. */
    public static long taken() {
        long taken = isLost ? 0 : steps;
        isLost = false;
        steps = 0;
        return taken;
    }
}
