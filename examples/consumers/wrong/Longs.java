import java.io.*;
import java.nio.file.*;
import java.util.*;
import java.util.regex.*;

/**
 * It keeps balances as longs, which end at 2^63-1.
 *
 *     try-consumer --acks --book 'grep -v last book' -- java Longs.java
 *     without faults, delivery 8: your consumer ended with status 1 before it answered
 */
class Longs {
    static final String[] SUMS = {"debits_pending", "debits_posted", "credits_pending", "credits_posted"};

    static String find(String pattern, String text) {
        Matcher found = Pattern.compile(pattern).matcher(text);
        return found.find() ? found.group(1) : "0";
    }

    public static void main(String[] args) throws IOException {
        Map<String, String> book = new TreeMap<>();
        if (Files.exists(Path.of("book")))
            for (String it : Files.readAllLines(Path.of("book"))) book.put(it.split(" ")[0], it);
        for (Scanner in = new Scanner(System.in); in.hasNextLine(); ) {
            String line = in.nextLine(), last = book.getOrDefault("last", "last 0").substring(5);
            String time = find("\"timestamp\":\"(\\d+)\",\"transfer\":", line);
            if (Long.parseLong(time) > Long.parseLong(last)) {
                for (String side : List.of("debit_account", "credit_account")) {
                    String account = find(side + "\":\\{([^}]*)\\}", line), text = find("\"id\":\"(\\d+)", account);
                    for (String it : SUMS) text += " " + Long.parseLong(find(it + "\":\"(\\d+)", account));
                    book.put(text.split(" ")[0], text);
                }
                book.put("last", "last " + time);
                Files.write(Path.of("book.new"), book.values());
                Files.move(Path.of("book.new"), Path.of("book"), StandardCopyOption.ATOMIC_MOVE);
            }
            System.out.println("ok");
        }
    }
}
