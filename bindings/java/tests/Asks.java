import dev.hoarvelt.infer.Evidence;
import dev.hoarvelt.infer.Infer;
import dev.hoarvelt.infer.MimeSniff;
import dev.hoarvelt.infer.Named;
import dev.hoarvelt.infer.NamedType;
import dev.hoarvelt.infer.Type;
import dev.hoarvelt.infer.Types;
import dev.hoarvelt.infer.TypesException;
import java.io.BufferedInputStream;
import java.io.BufferedReader;
import java.io.ByteArrayInputStream;
import java.io.IOException;
import java.io.InputStream;
import java.io.InputStreamReader;
import java.lang.reflect.Modifier;
import java.nio.ByteBuffer;
import java.nio.charset.Charset;
import java.nio.charset.StandardCharsets;
import java.nio.file.Files;
import java.nio.file.Path;
import java.util.ArrayList;
import java.util.Arrays;
import java.util.HexFormat;
import java.util.List;
import java.util.Optional;
import java.util.concurrent.Callable;
import java.util.concurrent.ExecutorService;
import java.util.concurrent.Executors;
import java.util.concurrent.Future;
import java.util.concurrent.atomic.AtomicBoolean;

/** Asks what the test wants to know, by the first word, and prints what it was told. */
final class Asks {
    private static final String OWN = "qoi image/qoi image - 14: @0 \"qoif\"\n";

    public static void main(String[] words) throws Exception {
        List<String> rest = List.of(words).subList(1, words.length);
        switch (words[0]) {
            case "rows" -> rows();
            case "ways" -> ways(Path.of(rest.get(0)));
            case "own" -> rest.forEach(Asks::own);
            case "load" -> rest.forEach(path -> say(path, () -> shown(Types.load(Path.of(path)).get(hex("716f6966" + "00".repeat(10))))));
            case "paths" -> rest.forEach(path -> say(path, () -> shown(Infer.get(Path.of(path)))));
            case "probe" -> rest.forEach(path -> say(path, () -> String.valueOf(Files.probeContentType(Path.of(path)))));
            case "named" -> named();
            case "line" -> System.out.println(Infer.line("main\n.py", "import os\n".getBytes(StandardCharsets.UTF_8)));
            case "namedPaths" -> rest.forEach(path -> say(path, () -> shown(Infer.named(Path.of(path)))));
            case "oddities" -> given().forEach(name -> System.out.println(Infer.oddities(new String(name, StandardCharsets.UTF_8))));
            case "evidence" -> evidence(Path.of(rest.get(0)));
            case "mime" -> mime();
            case "older" -> older(rest.get(0));
            case "streams" -> streams();
            case "nulls" -> nulls();
            case "threads" -> threads();
            default -> throw new IllegalArgumentException(words[0]);
        }
    }

    private static byte[] hex(String digits) {
        return HexFormat.of().parseHex(digits);
    }

    private static List<String> lines() throws IOException {
        try (BufferedReader in = new BufferedReader(new InputStreamReader(System.in))) {
            return in.lines().toList();
        }
    }

    private static List<byte[]> given() throws IOException {
        return lines().stream().map(Asks::hex).toList();
    }

    private static String shown(Optional<Type> type) {
        return type.map(it -> it.mimeType() + " " + it.extension() + " " + it.group()).orElse("unknown");
    }

    /** Prints what a call answers, or what it throws. */
    private static void say(String about, Callable<String> call) {
        String told;
        try {
            told = call.call();
        } catch (Exception fault) {
            told = fault.getClass().getSimpleName();
        }
        System.out.println(about + "\t" + told);
    }

    /** How the library is called, its version, and the rows. */
    private static void rows() throws Exception {
        boolean isNative = Arrays.stream(Class.forName("dev.hoarvelt.infer.Library").getDeclaredMethods()).anyMatch(it -> Modifier.isNative(it.getModifiers()));
        System.out.println(isNative ? "native" : "foreign");
        System.out.println(Infer.version());
        Infer.types().forEach(it -> System.out.println(shown(Optional.of(it))));
        Infer.furtherTypes().forEach(it -> System.out.println(shown(Optional.of(it))));
    }

    private static String shownType(Optional<NamedType> type) {
        return type.map(it -> it.mimeType() + " " + it.extension().orElse("-") + " " + it.isOwnName()).orElse("none");
    }

    private static String shown(Named it) {
        return String.join("|", it.standing().toString(), shownType(it.type()), shownType(it.typeOfName()), shown(it.typeOfBytes()));
    }

    /** Of each name and each buffer that are given, what they tell, in each way to hand the buffer over. */
    private static void named() throws IOException {
        List<byte[]> all = given();
        for (int i = 0; i < all.size(); i += 2) {
            String name = new String(all.get(i), StandardCharsets.UTF_8);
            byte[] bytes = all.get(i + 1);
            System.out.println(String.join(
                "\t",
                shown(Infer.named(name, bytes)),
                shown(Infer.named(name, inside(bytes, ByteBuffer.allocateDirect(bytes.length + 9)))),
                shown(Infer.named(name, new BufferedInputStream(new ByteArrayInputStream(bytes), 16)))));
        }
    }

    private static String shown(Evidence it) {
        List<String> ranges = it.ranges().stream().map(range -> range.place() + " " + range.length() + " " + range.step() + " " + shown(range.type()) + " " + range.accepts()).toList();
        return shown(it.type()) + "|" + String.join(";", ranges) + "|" + it.wanted() + " " + it.least() + " " + it.isExact();
    }

    /** Of each buffer that is given, what decides both answers, in each way to hand it over. */
    private static void evidence(Path file) throws IOException {
        for (byte[] bytes : given()) {
            Files.write(file, bytes);
            System.out.println(String.join(
                "\t",
                shown(Infer.evidence(bytes)), shown(Infer.moreEvidence(bytes)),
                shown(Infer.evidence(inside(bytes, ByteBuffer.allocateDirect(bytes.length + 9)))), shown(Infer.moreEvidence(inside(bytes, ByteBuffer.allocate(bytes.length + 9)))),
                shown(Infer.evidence(new ByteArrayInputStream(bytes))), shown(Infer.moreEvidence(new ByteArrayInputStream(bytes))),
                shown(Infer.evidence(file)), shown(Infer.moreEvidence(file))));
        }
    }

    /** Of each question, which is a call, a text, two numbers and bytes, what the call says, as digits of UTF-8. */
    private static void mime() throws IOException {
        for (String line : lines()) {
            String[] asked = line.split("\t", -1);
            String text = new String(hex(asked[1]), StandardCharsets.UTF_8);
            int flags = Integer.parseInt(asked[2]);
            int number = Integer.parseInt(asked[3]);
            byte[] bytes = hex(asked[4]);
            MimeSniff.Supplied supplied = new MimeSniff.Supplied(text, (flags & 1) != 0, (flags & 2) != 0, MimeSniff.Context.values()[number]);
            ByteBuffer direct = inside(bytes, ByteBuffer.allocateDirect(bytes.length + 9));
            String told = switch (asked[0]) {
                case "parse" -> MimeSniff.parse(text).orElse("none");
                case "extract" -> MimeSniff.extract(text).orElse("none");
                case "groups" -> MimeSniff.groups(text).toString();
                case "nosniff" -> String.valueOf(MimeSniff.isNosniff(text));
                case "blocked" -> String.valueOf(MimeSniff.isBlocked(text, MimeSniff.Destination.values()[number]));
                case "old_server" -> String.valueOf(MimeSniff.isOldServer(text));
                case "compute" -> same(MimeSniff.compute(bytes, supplied).orElse("none"), MimeSniff.compute(direct, supplied).orElse("none"));
                case "is_decided" -> same(MimeSniff.isDecided(bytes, supplied), MimeSniff.isDecided(direct, supplied));
                case "may_be_scriptable" -> same(MimeSniff.mayBeScriptable(bytes), MimeSniff.mayBeScriptable(direct));
                default -> throw new IllegalArgumentException(line);
            };
            System.out.println(HexFormat.of().formatHex(told.getBytes(StandardCharsets.UTF_8)));
        }
    }

    /** What is said of an array, if the same is said of a buffer. */
    private static String same(Object ofArray, Object ofBuffer) {
        return ofArray.equals(ofBuffer) ? ofArray.toString() : ofArray + " and " + ofBuffer;
    }

    private interface Way {
        String of(byte[] bytes) throws IOException;
    }

    private static String answers(Optional<Type> get, Optional<Type> wider, Optional<Charset> encoding, boolean isDecided, boolean isWiderDecided, Optional<Type> own) {
        return String.join("|", shown(get), shown(wider), encoding.map(Charset::name).orElse("none"), String.valueOf(isDecided), String.valueOf(isWiderDecided), shown(own));
    }

    /** Of each buffer that is given, what is said of it in each way to hand it over. */
    private static void ways(Path file) throws IOException {
        Types own = Types.of(OWN);
        List<Way> all = List.of(
            it -> answers(Infer.get(it), Infer.getMore(it), Infer.encoding(it), Infer.isDecided(it), Infer.isMoreDecided(it), own.get(it)),
            it -> of(own, inside(it, ByteBuffer.allocate(it.length + 9))),
            it -> of(own, inside(it, ByteBuffer.allocateDirect(it.length + 9))),
            it -> of(own, inside(it, ByteBuffer.allocate(it.length + 9)).slice().asReadOnlyBuffer()),
            it -> of(own, new BufferedInputStream(new ByteArrayInputStream(it), 16)),
            it -> {
                Files.write(file, it);
                return answers(Infer.get(file), Infer.getMore(file), Infer.encoding(file), Infer.isDecided(file), Infer.isMoreDecided(file), own.get(file));
            });
        for (byte[] bytes : given()) {
            List<String> told = new ArrayList<>();
            for (Way way : all) {
                told.add(way.of(bytes));
            }
            System.out.println(String.join("\t", told));
        }
    }

    /** The bytes in the midst of others, of which none is part of an answer. */
    private static ByteBuffer inside(byte[] bytes, ByteBuffer room) {
        while (room.hasRemaining()) {
            room.put((byte) 'G');
        }
        room.position(5).limit(5 + bytes.length);
        room.duplicate().put(bytes);
        return room;
    }

    private static String of(Types own, ByteBuffer it) {
        ByteBuffer before = it.duplicate();
        String told = answers(Infer.get(it), Infer.getMore(it), Infer.encoding(it), Infer.isDecided(it), Infer.isMoreDecided(it), own.get(it));
        return before.equals(it) && before.position() == it.position() ? told : "moved";
    }

    private static String of(Types own, InputStream it) throws IOException {
        int left = it.available();
        String told = answers(Infer.get(it), Infer.getMore(it), Infer.encoding(it), Infer.isDecided(it), Infer.isMoreDecided(it), own.get(it));
        return left == it.available() ? told : "moved";
    }

    private static void own(String text) {
        try {
            Types types = Types.of(text);
            System.out.println(shown(types.get(hex("716f6966" + "00".repeat(10)))) + ", " + shown(types.get("GIF89a".getBytes(StandardCharsets.US_ASCII))));
        } catch (TypesException mistake) {
            System.out.println(mistake.line() + " " + mistake.column() + " " + mistake.reason() + ": " + mistake.getMessage());
        }
    }

    /** A stream whose reads and resets do what it is told. */
    private static final class Odd extends InputStream {
        private final int given;
        private final boolean resets;

        Odd(int given, boolean resets) {
            this.given = given;
            this.resets = resets;
        }

        @Override
        public int read() {
            return 'G';
        }

        @Override
        public int read(byte[] to, int from, int size) throws IOException {
            if (given < -1) {
                throw new IOException("no more");
            }
            return given;
        }

        @Override
        public boolean markSupported() {
            return true;
        }

        @Override
        public void reset() throws IOException {
            if (!resets) {
                throw new IOException("no way back");
            }
        }
    }

    /** Whether older names and other ways to hand a file over have the same answers. */
    @SuppressWarnings("deprecation")
    private static void older(String path) throws IOException {
        Path at = Path.of(path);
        byte[] bytes = Files.readAllBytes(at);
        System.out.println(Infer.wider(bytes).equals(Infer.getMore(at.toFile())) && Infer.wider(at).equals(Infer.wider(ByteBuffer.wrap(bytes))));
        System.out.println(Infer.isWiderDecided(at) == Infer.isMoreDecided(bytes) && Infer.get(at.toFile()).equals(Infer.get(at)));
        System.out.println(Infer.named(at.toFile()).equals(Infer.named(at)));
        System.out.println(Infer.detect(bytes) + " " + Infer.detect(at) + " " + Infer.detect(at.toFile()) + " " + Infer.detect(new byte[] {0, 1}));
    }

    private static void streams() throws IOException {
        for (int given : new int[] {-2, -1, 0, Infer.FRONT, Infer.FRONT + 1, Integer.MAX_VALUE}) {
            for (boolean resets : new boolean[] {true, false}) {
                say(given + " " + resets, () -> shown(Infer.get(new Odd(given, resets))));
            }
        }
        say("no mark", () -> shown(Infer.get(InputStream.nullInputStream())));
        InputStream pieces = new BufferedInputStream(new ByteArrayInputStream(hex("0000474946383961")) {
            @Override
            public synchronized int read(byte[] to, int from, int size) {
                return super.read(to, from, Math.min(size, 1));
            }
        });
        pieces.skipNBytes(2);
        say("pieces", () -> shown(Infer.get(pieces)));
        say("the rest", () -> HexFormat.of().formatHex(pieces.readAllBytes()));
    }

    private static void nulls() {
        say("array", () -> shown(Infer.get((byte[]) null)));
        say("buffer", () -> shown(Infer.getMore((ByteBuffer) null)));
        say("stream", () -> String.valueOf(Infer.encoding((InputStream) null)));
        say("path", () -> String.valueOf(Infer.isDecided((Path) null)));
        say("text", () -> String.valueOf(Types.of(null)));
        say("half a character", () -> String.valueOf(Types.of(OWN + "\ud800")));
    }

    /** Eight threads ask about the same buffers, and have the same answers, while others change what they are asked about. */
    private static void threads() throws Exception {
        Types own = Types.of(OWN);
        List<byte[]> buffers = given();
        List<String> alone = buffers.stream().map(it -> of(own, ByteBuffer.wrap(it))).toList();
        byte[] torn = new byte[Infer.FRONT];
        ByteBuffer moved = ByteBuffer.allocateDirect(Infer.FRONT);
        AtomicBoolean isOver = new AtomicBoolean();
        ExecutorService all = Executors.newFixedThreadPool(12);
        List<Future<Boolean>> right = new ArrayList<>();
        for (int thread = 0; thread < 8; thread++) {
            right.add(all.submit(() -> buffers.stream().map(it -> of(own, ByteBuffer.wrap(it))).toList().equals(alone)));
        }
        for (int thread = 0; thread < 2; thread++) {
            int first = thread;
            all.submit(() -> {
                for (int at = first; !isOver.get(); at = (at + 1) % buffers.size()) {
                    byte[] bytes = buffers.get(at);
                    System.arraycopy(bytes, 0, torn, 0, Math.min(bytes.length, torn.length));
                    moved.limit(at % Infer.FRONT).position(at % (moved.limit() + 1));
                    moved.clear();
                    if (at % 100 == first) {
                        System.gc();
                    }
                }
                return null;
            });
        }
        for (int thread = 0; thread < 2; thread++) {
            right.add(all.submit(() -> {
                for (int count = 0; count < 5_000; count++) {
                    own.get(torn);
                    Infer.getMore(torn);
                    Infer.encoding(torn);
                    Infer.isDecided(moved);
                }
                return true;
            }));
        }
        boolean isRight = true;
        for (Future<Boolean> it : right) {
            isRight &= it.get();
        }
        isOver.set(true);
        all.shutdown();
        System.out.println(isRight);
    }
}
