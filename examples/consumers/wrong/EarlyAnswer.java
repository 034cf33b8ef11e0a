import java.io.*;
import java.math.BigInteger;
import java.nio.file.*;
import java.util.*;
import java.util.regex.*;

/**
 * It answers, and then saves its book. A kill between the two loses an event.
 *
 *     try-consumer --acks --book 'cat book' -- java EarlyAnswer.java
 *     seed 2, after delivery 29: the book is wrong
 */
class EarlyAnswer {
    static String find(String pattern, String text) {
        Matcher found = Pattern.compile(pattern).matcher(text);
        return found.find() ? found.group(1) : "0";
    }

    public static void main(String[] args) throws IOException {
        Map<String, String> book = new TreeMap<>(Map.of("0", "{\"kind\":\"last\",\"last\":\"0\"}")); // by id; the last timestamp under 0
        if (Files.exists(Path.of("book")))
            for (String it : Files.readAllLines(Path.of("book"))) book.put(find("\"id\":\"(\\d+)", it), it);
        for (Scanner in = new Scanner(System.in); in.hasNextLine(); ) {
            String line = in.nextLine(), type = find("\"type\":\"(\\w+)", line), time = find("\"timestamp\":\"(\\d+)\",\"tr", line);
            String amount = type.matches("single_phase|two_phase_posted") ? find("\"amount\":\"(\\d+)", line) : "0";
            System.out.println("ok");
            if (new BigInteger(time).compareTo(new BigInteger(find("\"last\":\"(\\d+)", book.get("0")))) <= 0) continue;
            for (String side : List.of("debit", "credit")) {
                String id = find(side + "_account\":\\{[^}]*\"id\":\"(\\d+)", line), text = "{\"id\":\"" + id + "\"";
                for (String it : List.of("debits_posted", "credits_posted")) {
                    BigInteger sum = new BigInteger(find(it + "\":\"(\\d+)", book.getOrDefault(id, "")));
                    text += ",\"" + it + "\":\"" + (it.startsWith(side) ? sum.add(new BigInteger(amount)) : sum) + "\"";
                }
                book.put(id, text + "}");
            }
            book.put("0", "{\"kind\":\"last\",\"last\":\"" + time + "\"}");
            Files.write(Path.of("book"), book.values());
        }
    }
}
