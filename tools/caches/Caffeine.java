import com.github.benmanes.caffeine.cache.Cache;
import com.github.benmanes.caffeine.cache.Caffeine;
import java.util.Arrays;
import java.util.Random;

/** Times of a hit in Caffeine, with its counters, after rounds that warm the virtual machine up; tools/caches/run runs it. */
class CaffeineFigures {
    static final int ROUNDS = 225, WARM = 200, GETS = 40_000, DRAWN = 1 << 16, KEYS = 1000;

    /** The keys that a thread gets, by turns: one, or of 1,000 by zipf. */
    static String[] keys(int thread, boolean zipf) {
        if (!zipf) return new String[] {"/index.html"};
        double[] upTo = new double[KEYS];
        double sum = 0;
        for (int i = 0; i < KEYS; i++) upTo[i] = sum += Math.pow(i + 1, -1.01);
        String[] names = new String[KEYS];
        for (int i = 0; i < KEYS; i++) names[i] = String.format("/page-%03d.html", i);
        Random random = new Random(thread);
        String[] all = new String[DRAWN];
        for (int i = 0; i < DRAWN; i++) {
            int at = Arrays.binarySearch(upTo, random.nextDouble() * sum);
            all[i] = names[at < 0 ? -at - 1 : at];
        }
        return all;
    }

    static long got;

    static double round(Cache<String, String> cache, String[][] lists) throws InterruptedException {
        Thread[] threads = new Thread[lists.length];
        long from = System.nanoTime();
        for (int i = 0; i < threads.length; i++) {
            String[] keys = lists[i];
            threads[i] = new Thread(() -> {
                long sum = 0;
                for (int n = 0, at = 0; n < GETS; n++, at = at + 1 == keys.length ? 0 : at + 1)
                    sum += cache.get(keys[at], key -> "<html></html>").length();
                got = sum;
            });
            threads[i].start();
        }
        for (Thread thread : threads) thread.join();
        return (double) (System.nanoTime() - from) / ((double) GETS * threads.length);
    }

    static void measure(int threads, boolean zipf) throws InterruptedException {
        Cache<String, String> cache = Caffeine.newBuilder().maximumWeight(1 << 20).weigher((String key, String page) -> key.length() + page.length()).recordStats().build();
        String[][] lists = new String[threads][];
        for (int i = 0; i < threads; i++) lists[i] = keys(i, zipf);
        for (int i = 0; i < WARM; i++) round(cache, lists);
        double[] times = new double[ROUNDS];
        for (int i = 0; i < ROUNDS; i++) times[i] = round(cache, lists);
        Arrays.sort(times);
        System.out.printf("Caffeine    %-20s %d threads: least %.0f median %.0f%n", zipf ? "1,000 keys by zipf" : "one key", threads, times[0], times[ROUNDS / 2]);
    }

    public static void main(String[] words) throws InterruptedException {
        for (boolean zipf : new boolean[] {false, true}) for (int threads : new int[] {1, 4}) measure(threads, zipf);
    }
}
