import java.io.*;
import java.math.BigInteger;
import java.nio.file.*;
import java.util.*;
import java.util.regex.*;

/** A consumer that applies each event once: it saves the last timestamp with its book, in one file (args[0]) that it replaces. */
class Remembering {
    static final Properties state = new Properties(); // last, applied, ended, and the sums of each account by its id

    static String find(String pattern, String text) { // returns what a text has at a pattern's group
        Matcher found = Pattern.compile(pattern).matcher(text);
        return found.find() ? found.group(1) : "";
    }

    public static void main(String[] args) throws IOException {
        Path file = Path.of(args[0]), fresh = Path.of(args[0] + ".new");
        if (Files.exists(file)) state.load(Files.newBufferedReader(file));
        for (Scanner in = new Scanner(System.in); in.hasNextLine(); ) {
            String line = in.nextLine(), result = "duplicate", accounts = "";
            String time = find("\"timestamp\":\"(\\d+)\",\"transfer\":", line);
            if (line.endsWith("\"end\":true}")) result = state.put("ended", "yes") == null ? "end" : result;
            else if (!state.containsKey("ended") && new BigInteger(time).compareTo(new BigInteger(state.getProperty("last", "0"))) > 0) {
                result = "applied";
                state.put("last", time);
                state.merge("applied", "1", (old, one) -> "" + (Integer.parseInt("" + old) + 1));
                for (String side : List.of("debit", "credit")) {
                    String account = find(side + "_account\":\\{([^}]*)\\}", line), id = find("(\"id\":\"\\d+\")", account);
                    String sums = find("(\"credits_pending\".*\"debits_posted\":\"\\d+\")", account);
                    state.put(id, sums);
                    accounts += (accounts.isEmpty() ? "{" : ",{") + id + "," + sums + "}";
                }
            }
            try (Writer out = Files.newBufferedWriter(fresh)) { state.store(out, null); }
            Files.move(fresh, file, StandardCopyOption.ATOMIC_MOVE); // (all of it is saved, or none)
            System.out.println("{\"delivery\":" + find("\"delivery\":(\\d+)", line) + ",\"result\":\"" + result + "\",\"applied\":"
                + state.getProperty("applied", "0") + ",\"last\":\"" + state.getProperty("last", "0") + "\",\"accounts\":[" + accounts + "]}");
        }
    }
}
