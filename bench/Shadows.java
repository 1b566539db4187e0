import dk.brics.automaton.Automaton;
import dk.brics.automaton.RegExp;
import java.io.IOException;
import java.nio.file.Files;
import java.nio.file.Path;
import java.util.HashMap;
import java.util.List;
import java.util.Map;

/**
 * The shadow report by a general library of automata, for bench/analysis to be measured against.
 *
 * <p>Standard input has the patterns along the chain of each subject, one a line, and an empty line
 * after each subject. Of each entry that no text reaches, a line "SUBJECT ENTRY" is printed, both
 * counted from 1.
 */
public final class Shadows {
    private static final Map<String, Automaton> AUTOMATA = new HashMap<>();

    /** The pattern in the library's syntax: a dot is a symbol, and more symbols are special. */
    private static String translated(String pattern) {
        StringBuilder text = new StringBuilder();
        boolean inClass = false;
        for (int i = 0; i < pattern.length(); i++) {
            char symbol = pattern.charAt(i);
            if (symbol == '\\') {
                text.append(symbol).append(pattern.charAt(++i));
            } else if (symbol == '.' && !inClass) {
                text.append("[ -~]");
            } else if ("\"@&~#<>{}".indexOf(symbol) >= 0) {
                text.append('\\').append(symbol);
            } else {
                inClass = symbol == '[' || (inClass && symbol != ']');
                text.append(symbol);
            }
        }
        return text.toString();
    }

    private static Automaton automaton(String pattern) {
        return AUTOMATA.computeIfAbsent(pattern, p -> new RegExp(translated(p)).toAutomaton());
    }

    public static void main(String[] arguments) throws IOException {
        List<String> lines = Files.readAllLines(Path.of("/dev/stdin"));
        int subject = 1;
        int entry = 0;
        Automaton before = Automaton.makeEmpty();
        for (String line : lines) {
            if (line.isEmpty()) {
                subject++;
                entry = 0;
                before = Automaton.makeEmpty();
                continue;
            }
            entry++;
            Automaton held = automaton(line);
            if (held.minus(before).isEmpty()) {
                System.out.println(subject + " " + entry);
            }
            before = before.union(held);
            before.determinize();
        }
    }
}
