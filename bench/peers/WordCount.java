import java.io.BufferedOutputStream;
import java.io.IOException;
import java.nio.charset.StandardCharsets;
import java.util.ArrayList;
import java.util.Collections;
import java.util.HashMap;

/** Counts the words of standard input in a hash map, and writes them in the order of their bytes. */
public class WordCount {
    public static void main(String[] words) throws IOException {
        byte[] text = System.in.readAllBytes();
        HashMap<String, long[]> counts = new HashMap<>();
        for (int i = 0; i < text.length; ) {
            while (i < text.length && isBlank(text[i])) i++;
            int from = i;
            while (i < text.length && !isBlank(text[i])) i++;
            if (i > from) counts.computeIfAbsent(new String(text, from, i - from, StandardCharsets.ISO_8859_1), word -> new long[1])[0]++;
        }
        ArrayList<String> list = new ArrayList<>(counts.keySet());
        Collections.sort(list);
        BufferedOutputStream out = new BufferedOutputStream(System.out);
        for (String word : list) out.write((counts.get(word)[0] + " " + word + "\n").getBytes(StandardCharsets.ISO_8859_1));
        out.flush();
    }

    static boolean isBlank(byte b) {
        return b == ' ' || b == '\t' || b == '\n' || b == '\r';
    }
}
