import com.google.zxing.FormatException;
import com.google.zxing.ResultPoint;
import com.google.zxing.aztec.AztecDetectorResult;
import com.google.zxing.aztec.decoder.Decoder;
import com.google.zxing.aztec.encoder.AztecCode;
import com.google.zxing.aztec.encoder.Encoder;
import com.google.zxing.common.BitMatrix;
import java.io.IOException;
import java.nio.charset.StandardCharsets;
import java.nio.file.Files;
import java.nio.file.Path;
import java.util.ArrayList;
import java.util.List;
import java.util.Locale;

/**
 * Times the Aztec decoder and encoder of ZXing's core: java ZxingJava FOLDER
 *
 * <p>The decoder is told family, layers and data words and gets the symbol upright, so it finds neither position nor mode; the encoder is
 * told the shape.
 */
public final class ZxingJava {
  private static final int RUNS = 11;

  /** About as long as one run may take, in seconds. */
  private static final double A_RUN = 0.01;

  private static final int MOST_ROUNDS = 10_000;

  /** Seconds in which all cases are gone through before the first is timed, so that all is compiled by then. */
  private static final double WARM_UP = 5;

  /** What the last call made; a field, so that no call is left out for having no effect. */
  private Object last;

  private final Decoder decoder = new Decoder();

  /** A line of the list with its files. */
  private record Case(String name, int percent, int layers, int wrong, byte[] message, AztecDetectorResult symbol) {
    static Case of(Path folder, String line) throws IOException {
      String[] words = line.split(" ");
      boolean compact = words[2].equals("1");
      int layers = Integer.parseInt(words[3]);
      BitMatrix bits = bitmap(folder.resolve(words[0] + ".pbm"));
      AztecDetectorResult symbol =
          new AztecDetectorResult(bits, new ResultPoint[0], compact, Integer.parseInt(words[4]), layers);
      byte[] message = Files.readAllBytes(folder.resolve(words[0] + ".bytes"));
      // The encoder takes compact shapes by a negative number of layers.
      return new Case(
          words[0], Integer.parseInt(words[1]), compact ? -layers : layers, Integer.parseInt(words[5]), message, symbol);
    }
  }

  public static void main(String[] arguments) throws IOException {
    Path folder = Path.of(arguments[0]);
    List<Case> cases = new ArrayList<>();
    for (String line : Files.readAllLines(folder.resolve("list.txt"))) {
      cases.add(Case.of(folder, line));
    }
    ZxingJava bench = new ZxingJava();
    bench.warmUp(cases);
    for (Case given : cases) {
      String outcome = bench.judged(given);
      bench.time("read", given.name, outcome, () -> bench.read(given));
    }
    for (Case given : cases) {
      if (given.wrong == 0) {
        String outcome = bench.made(folder, given);
        bench.time("make", given.name, outcome, () -> bench.make(given));
      }
    }
  }

  private void warmUp(List<Case> cases) {
    long start = System.nanoTime();
    while (System.nanoTime() - start < WARM_UP * 1e9) {
      for (Case given : cases) {
        read(given);
        if (given.wrong == 0) {
          make(given);
        }
      }
    }
  }

  private void read(Case given) {
    try {
      last = decoder.decode(given.symbol).getText();
    } catch (FormatException fault) {
      last = null;
    }
  }

  private void make(Case given) {
    try {
      last = Encoder.encode(given.message, given.percent, given.layers);
    } catch (IllegalArgumentException fault) {
      last = null;
    }
  }

  private String judged(Case given) {
    read(given);
    if (last == null) {
      return "none";
    }
    String due = new String(given.message, StandardCharsets.ISO_8859_1);
    return due.equals(last) ? "right" : "wrong";
  }

  /** What was made is judged later, by another program. */
  private String made(Path folder, Case given) throws IOException {
    make(given);
    if (last == null) {
      return "none";
    }
    write(folder.resolve(given.name + ".zxing_java"), ((AztecCode) last).getMatrix());
    return "made";
  }

  private void time(String what, String name, String outcome, Runnable call) {
    int rounds = (int) Math.max(1, Math.min(MOST_ROUNDS, A_RUN / seconds(1, call)));
    double fast = Double.POSITIVE_INFINITY;
    double slow = 0;
    for (int run = 0; run < RUNS; run++) {
      double took = seconds(rounds, call);
      fast = Math.min(fast, took);
      slow = Math.max(slow, took);
    }
    System.out.println(String.format(Locale.ROOT, "%s %s %.3f %.3f %s", what, name, fast * 1e6, slow * 1e6, outcome));
  }

  /** Seconds a call, over so many calls. */
  private static double seconds(int rounds, Runnable call) {
    long start = System.nanoTime();
    for (int i = 0; i < rounds; i++) {
      call.run();
    }
    return (System.nanoTime() - start) * 1e-9 / rounds;
  }

  private static BitMatrix bitmap(Path file) throws IOException {
    List<String> lines = Files.readAllLines(file);
    List<String> rows = lines.subList(2, lines.size());
    BitMatrix bits = new BitMatrix(rows.size());
    for (int y = 0; y < rows.size(); y++) {
      for (int x = 0; x < rows.size(); x++) {
        if (rows.get(y).charAt(x) == '1') {
          bits.set(x, y);
        }
      }
    }
    return bits;
  }

  private static void write(Path file, BitMatrix bits) throws IOException {
    int side = bits.getWidth();
    StringBuilder text = new StringBuilder("P1\n" + side + " " + side + "\n");
    for (int y = 0; y < side; y++) {
      for (int x = 0; x < side; x++) {
        text.append(bits.get(x, y) ? '1' : '0');
      }
      text.append('\n');
    }
    Files.writeString(file, text);
  }
}
