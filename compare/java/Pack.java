import java.io.*;
import java.net.URI;
import java.nio.file.*;
import java.util.*;
import java.util.stream.*;
import java.util.zip.*;
import javax.tools.ToolProvider;

/**
 * Writes class files into packs: for each its length in four bytes, then its bytes.
 * java Pack.java jdk OUT SHARE SEED: one in SHARE of the running JDK's classes
 * java Pack.java jars OUT [jar or folder ..]: all classes in them
 * java Pack.java own OUT SOURCES CLASSES: the Java sources compiled for several releases
 */
public class Pack {
    static DataOutputStream out;
    static int classes;

    static void put(byte[] bytes) throws IOException {
        out.writeInt(bytes.length);
        out.write(bytes);
        classes++;
    }

    static boolean chosen(String name, int share, int seed) {
        CRC32 sum = new CRC32();
        sum.update((seed + ":" + name).getBytes());
        return sum.getValue() % share == 0;
    }

    static List<Path> under(Path root, String ending) throws IOException {
        try (Stream<Path> all = Files.walk(root)) {
            return all.filter(p -> p.toString().endsWith(ending)).sorted().collect(Collectors.toList());
        }
    }

    static void compile(Path sources, Path classes, String... options) throws IOException {
        List<String> words = new ArrayList<>(List.of("-nowarn", "-Xlint:none", "-d", classes.toString()));
        words.addAll(List.of(options));
        for (Path p : under(sources, ".java")) words.add(p.toString());
        Files.createDirectories(classes);
        ByteArrayOutputStream said = new ByteArrayOutputStream();
        int rc = ToolProvider.getSystemJavaCompiler().run(null, said, said, words.toArray(new String[0]));
        if (rc != 0) throw new IOException("javac " + words + "\n" + said);
    }

    static void own(Path sources, Path classes) throws IOException {
        for (String release : List.of("8", "9", "11", "17")) {
            String debug = release.equals("8") || release.equals("11") ? "-g" : "-g:none";
            compile(sources.resolve("any"), classes.resolve("any" + release), "--release", release, debug, "-parameters");
        }
        compile(sources.resolve("module"), classes.resolve("module9"), "--release", "9");
        compile(sources.resolve("module"), classes.resolve("module17"), "--release", "17");
        compile(sources.resolve("new"), classes.resolve("new17"), "--release", "17", "-g");
        for (Path f : under(classes, ".class")) put(Files.readAllBytes(f));
    }

    static void jar(Path p) throws IOException {
        if (Files.isDirectory(p)) {
            for (Path f : under(p, ".class")) put(Files.readAllBytes(f));
            return;
        }
        try (ZipFile zip = new ZipFile(p.toFile())) {
            for (ZipEntry e : Collections.list(zip.entries()))
                if (e.getName().endsWith(".class")) put(zip.getInputStream(e).readAllBytes());
        }
    }

    public static void main(String[] words) throws Exception {
        Path part = Paths.get(words[1] + ".part");
        out = new DataOutputStream(new BufferedOutputStream(Files.newOutputStream(part), 1 << 20));
        switch (words[0]) {
            case "jdk":
                int share = Integer.parseInt(words[2]), seed = Integer.parseInt(words[3]);
                for (Path p : under(FileSystems.getFileSystem(URI.create("jrt:/")).getPath("/modules"), ".class"))
                    if (chosen(p.toString(), share, seed)) put(Files.readAllBytes(p));
                break;
            case "own":
                own(Paths.get(words[2]), Paths.get(words[3]));
                break;
            default:
                for (int i = 2; i < words.length; i++) jar(Paths.get(words[i]));
        }
        out.close();
        Files.move(part, Paths.get(words[1]), StandardCopyOption.REPLACE_EXISTING);
        System.out.println(words[1] + ": " + classes + " classes");
    }
}
