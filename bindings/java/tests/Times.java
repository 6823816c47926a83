import dev.hoarvelt.infer.Infer;
import java.io.ByteArrayInputStream;
import java.net.URLConnection;
import java.nio.file.Files;
import java.nio.file.Path;
import java.util.ArrayList;
import java.util.List;

/** Prints the nanoseconds that each call takes over the files that are named, the least of its rounds. */
final class Times {
    private static final int ROUNDS = 100;
    private static final int CALLS = 10_000;

    private interface Call {
        Object of(int number) throws Exception;
    }

    public static void main(String[] words) throws Exception {
        List<Path> paths = new ArrayList<>();
        List<byte[]> buffers = new ArrayList<>();
        for (String word : words) {
            paths.add(Path.of(word));
            buffers.add(Files.readAllBytes(Path.of(word)));
        }
        print("get", it -> Infer.get(buffers.get(it)), buffers.size(), CALLS);
        print("wider", it -> Infer.getMore(buffers.get(it)), buffers.size(), CALLS);
        print("connection", it -> URLConnection.guessContentTypeFromStream(new ByteArrayInputStream(buffers.get(it))), buffers.size(), CALLS);
        print("path", it -> Infer.get(paths.get(it)), buffers.size(), CALLS / 10);
    }

    private static void print(String name, Call call, int count, int calls) throws Exception {
        long least = Long.MAX_VALUE;
        int known = 0;
        for (int round = 0; round < ROUNDS; round++) {
            long start = System.nanoTime();
            for (int at = 0; at < calls; at++) {
                // What is answered is looked at, so that the call is made.
                known += call.of(at % count) == null ? 0 : 1;
            }
            least = Math.min(least, (System.nanoTime() - start) / calls);
        }
        System.out.println(name + " " + least + " " + known);
    }
}
