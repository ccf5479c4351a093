import java.nio.file.Path;
import java.util.concurrent.TimeUnit;

/**
 * A program that ends in the way that its first word says, with a log in the file of its second.
 *
 * <p>Life finish | leave | exit | raise | raise_in_step | halt | terminate | hang FILE
 */
public final class Life {
    private Life() {}

    public static void main(String[] words) throws Exception {
        if (words.length != 2) {
            System.err.println("usage: Life WAY FILE");
            System.exit(64);
        }
        VyrdLog log = VyrdLog.create(VyrdLog.Header.of(1, "multiset", 1, 2), Path.of(words[1]));
        VyrdLog.Caller first = log.caller();
        VyrdLog.Caller second = log.caller();
        first.call("insert", 5);
        first.step(lines -> lines.write(1, 5));
        first.step(lines -> {
            lines.write(0, 2);
            lines.commit();
        });
        first.returns(true);
        second.call("lookup", 5);
        switch (words[0]) {
            case "finish":
                second.returns(true);
                log.finish();
                break;
            case "exit":
                System.exit(3);
                break;
            case "raise":
                throw new IllegalStateException("by the test");
            case "raise_in_step":
                second.step(lines -> {
                    throw new IllegalStateException("by the test");
                });
                break;
            case "halt":
                TimeUnit.MILLISECONDS.sleep(500); // nothing can be done at a halt: a tick has to come before it
                Runtime.getRuntime().halt(3);
                break;
            case "terminate":
                new ProcessBuilder("kill", Long.toString(ProcessHandle.current().pid())).start();
                TimeUnit.SECONDS.sleep(60);
                break;
            case "hang":
                second.step(lines -> sleep());
                break;
            default:
        }
    }

    private static void sleep() {
        try {
            TimeUnit.SECONDS.sleep(60);
        } catch (InterruptedException e) {
            Thread.currentThread().interrupt();
        }
    }
}
