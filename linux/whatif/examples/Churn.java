import java.util.ArrayList;
import java.util.List;

/** A Java program with a heap that grew and shrank: java -XX:+UseTransparentHugePages -Xms128m Churn.java */
public class Churn {
    public static void main(String[] words) throws InterruptedException {
        List<byte[]> kept = new ArrayList<>();
        for (int round = 0; ; round++) {
            for (int i = 0; i < 2000 && round < 3; i++) {
                byte[] one = new byte[4000 + i];
                one[i] = 1;
                if (i % 5 == 0) kept.add(one);
            }
            Thread.sleep(100);
        }
    }
}
