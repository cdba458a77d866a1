import java.io.IOException;
import java.nio.charset.StandardCharsets;
import java.util.ArrayList;
import java.util.StringTokenizer;

/**
 * Makes the calls of a benchmark's script on objects of the virtual machine. It knows no refusals, and an end only pops the
 * epoch, so it answers "ok" where yak tells what was moved.
 */
public class Replay {
    public static void main(String[] words) throws IOException {
        String text = new String(System.in.readAllBytes(), StandardCharsets.ISO_8859_1);
        ArrayList<Object> stack = new ArrayList<>();
        stack.add(new Object[16]);
        StringBuilder out = new StringBuilder();
        int number = 0;
        for (String line : text.split("\n")) {
            if (++number == 1) continue;
            StringTokenizer parts = new StringTokenizer(line);
            parts.nextToken();
            switch (parts.nextToken()) {
                case "new" -> stack.add(new Object[next(parts)]);
                case "store" -> {
                    Object[] object = (Object[]) stack.get(next(parts));
                    int field = next(parts);
                    object[field] = stack.get(next(parts));
                }
                case "pop" -> stack.remove(stack.size() - 1);
                default -> { }
            }
            out.append(number).append(" ok\n");
        }
        System.out.print(out);
    }

    static int next(StringTokenizer parts) {
        return Integer.parseInt(parts.nextToken());
    }
}
