import java.io.BufferedReader;
import java.io.InputStreamReader;
import java.lang.management.ManagementFactory;
import java.lang.management.ThreadMXBean;
import java.nio.charset.StandardCharsets;
import java.util.ArrayList;
import java.util.List;
import org.apache.avro.Schema;
import org.apache.avro.SchemaCompatibility;

/**
 * Measures how fast Avro Java resolves schemas; it reads and prints what measure_resolution does, save that it counts no
 * pairs of types. A third argument says for how many milliseconds it works before it measures.
 */
public class MeasureResolution {
    private static final ThreadMXBean CLOCK = ManagementFactory.getThreadMXBean();

    private final List<String[]> texts = new ArrayList<>();
    private final List<Schema[]> pairs = new ArrayList<>();
    private int compatible;

    private static Schema[] read(String[] texts) {
        return new Schema[] {new Schema.Parser().parse(texts[0]), new Schema.Parser().parse(texts[1])};
    }

    private static int count(Schema[] pair) {
        SchemaCompatibility.SchemaPairCompatibility found =
                SchemaCompatibility.checkReaderWriterCompatibility(pair[0], pair[1]);
        return found.getType() == SchemaCompatibility.SchemaCompatibilityType.COMPATIBLE ? 1 : 0;
    }

    private void round() {
        compatible = 0;
        if (pairs.isEmpty()) {
            for (String[] text : texts) {
                compatible += count(read(text));
            }
        } else {
            for (Schema[] pair : pairs) {
                compatible += count(pair);
            }
        }
    }

    private void run(boolean parsed, long warm, long least) throws Exception {
        BufferedReader input = new BufferedReader(new InputStreamReader(System.in, StandardCharsets.UTF_8));
        for (String line = input.readLine(); line != null; line = input.readLine()) {
            texts.add(line.split("\t"));
        }
        if (parsed) {
            for (String[] text : texts) {
                pairs.add(read(text));
            }
        }
        long begun = CLOCK.getCurrentThreadCpuTime();
        do {
            round();
        } while (CLOCK.getCurrentThreadCpuTime() - begun < warm);
        long rounds = 0;
        long taken;
        begun = CLOCK.getCurrentThreadCpuTime();
        do {
            round();
            rounds++;
            taken = CLOCK.getCurrentThreadCpuTime() - begun;
        } while (taken < least);
        System.out.println(rounds + " " + taken + " " + compatible + " 0");
    }

    public static void main(String[] words) throws Exception {
        long million = 1_000_000;
        boolean parsed = words[0].equals("parsed");
        new MeasureResolution().run(parsed, Long.parseLong(words[2]) * million, Long.parseLong(words[1]) * million);
    }
}
