import java.io.FileDescriptor;
import java.io.FileInputStream;
import java.io.FileOutputStream;
import java.io.IOException;
import java.util.Arrays;

/**
 * Runs a program and holds the JVM before it ends: java Held MAIN ARGUMENT..
 *
 * At the end, by exit too, it prints the line "held" on standard error, and waits until standard input has a byte or is
 * closed. Meanwhile jcmd can be asked.
 */
public final class Held {
    public static void main(String[] words) throws Exception {
        Runtime.getRuntime().addShutdownHook(new Thread(Held::hold));
        Class<?> program = Class.forName(words[0]);
        Object arguments = Arrays.copyOfRange(words, 1, words.length);
        program.getMethod("main", String[].class).invoke(null, arguments);
    }

    private static void hold() {
        // by the descriptors, since a program may have set System.err and System.in anew
        try (FileOutputStream errors = new FileOutputStream(FileDescriptor.err);
                FileInputStream input = new FileInputStream(FileDescriptor.in)) {
            errors.write("held\n".getBytes());
            input.read();
        } catch (IOException closed) {
            // what can't be read holds nothing
        }
    }
}
