import java.io.*;
import java.math.BigInteger;
import java.nio.file.*;
import java.util.*;
import java.util.regex.*;

/**
 * It adds up posted amounts without a check for duplicates.
 *
 *     try-consumer --acks --book 'cat book' -- java NoCheck.java
 *     seed 1, after delivery 28: the book is wrong
 */
class NoCheck {
    static String find(String pattern, String text) {
        Matcher found = Pattern.compile(pattern).matcher(text);
        return found.find() ? found.group(1) : "0";
    }

    public static void main(String[] args) throws IOException {
        Map<String, String> book = new TreeMap<>(); // the account of each id, as it is saved
        if (Files.exists(Path.of("book")))
            for (String it : Files.readAllLines(Path.of("book"))) book.put(find("\"id\":\"(\\d+)", it), it);
        for (Scanner in = new Scanner(System.in); in.hasNextLine(); ) {
            String line = in.nextLine(), type = find("\"type\":\"(\\w+)", line);
            String amount = type.matches("single_phase|two_phase_posted") ? find("\"amount\":\"(\\d+)", line) : "0";
            for (String side : type.equals("0") ? List.<String>of() : List.of("debit", "credit")) {
                String id = find(side + "_account\":\\{[^}]*\"id\":\"(\\d+)", line), text = "{\"id\":\"" + id + "\"";
                for (String it : List.of("debits_posted", "credits_posted")) {
                    BigInteger sum = new BigInteger(find(it + "\":\"(\\d+)", book.getOrDefault(id, "")));
                    text += ",\"" + it + "\":\"" + (it.startsWith(side) ? sum.add(new BigInteger(amount)) : sum) + "\"";
                }
                book.put(id, text + "}");
            }
            Files.write(Path.of("book.new"), book.values());
            Files.move(Path.of("book.new"), Path.of("book"), StandardCopyOption.ATOMIC_MOVE);
            System.out.println("ok");
        }
    }
}
