import java.util.ArrayList;
import java.util.List;
import java.util.Random;

/**
 * Threads of a Java program whose heap grows and shrinks.
 *
 * <pre>thprecord --underused as-is -- java -XX:+UseTransparentHugePages -Xms16m -Xmx600m
 *     -XX:MaxHeapFreeRatio=10 -XX:MinHeapFreeRatio=5 Heap.java SEED THREADS ROUNDS</pre>
 */
public class Heap {
    public static void main(String[] words) throws InterruptedException {
        long seed = Long.parseLong(words[0]);
        int threads = Integer.parseInt(words[1]), rounds = Integer.parseInt(words[2]);
        List<Thread> all = new ArrayList<>();
        for (int number = 0; number < threads; number++) {
            Random chance = new Random(seed * 1000 + number);
            all.add(new Thread(() -> work(chance, rounds)));
        }
        all.forEach(Thread::start);
        for (Thread one : all) {
            one.join();
        }
    }

    /** Keeps up to so many arrays, drops them all now and then, and has the heap shrink. */
    private static void work(Random chance, int rounds) {
        List<byte[]> kept = new ArrayList<>();
        for (int round = 0; round < rounds; round++) {
            for (int i = 0; i < 100; i++) {
                kept.add(new byte[20_000 + chance.nextInt(200_000)]);
            }
            if (kept.size() > 700 || chance.nextInt(3) == 0) {
                kept.clear();
                System.gc();
            }
        }
    }
}
