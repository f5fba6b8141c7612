import java.io.IOException;
import java.nio.file.Files;
import java.nio.file.Path;
import java.util.ArrayList;
import java.util.Collections;
import java.util.List;
import java.util.Map;
import java.util.TreeMap;
import org.apache.jena.graph.Node;
import org.apache.jena.graph.NodeFactory;
import org.apache.jena.query.ARQ;
import org.apache.jena.query.Query;
import org.apache.jena.query.QueryFactory;
import org.apache.jena.query.Syntax;
import org.apache.jena.sparql.core.DatasetGraph;
import org.apache.jena.sparql.core.DatasetGraphFactory;
import org.apache.jena.sparql.core.Quad;
import org.apache.jena.sparql.core.Var;
import org.apache.jena.sparql.engine.QueryEngineFactory;
import org.apache.jena.sparql.engine.QueryIterator;
import org.apache.jena.sparql.engine.binding.Binding;
import org.apache.jena.sparql.engine.binding.BindingFactory;
import org.apache.jena.sparql.engine.main.QueryEngineMain;
import org.apache.jena.sparql.engine.ref.QueryEngineRef;
import org.apache.jena.sparql.util.Context;
import org.apache.jena.sparql.util.NodeFactoryExtra;
import org.apache.jena.sparql.util.Symbol;
import org.apache.jena.sys.JenaSystem;

/**
 * Asks Apache Jena ARQ the questions that questions.rs wrote to a file, and compares its rows with those in the file, as multisets:
 * whole queries by its reference engine and by its normal engine without the optimiser, single nodes, whose operands are given as
 * VALUES, by the normal engine. The last line is 'N passed, M failed'. Lines for information name faults of the peer: see README.md.
 */
public final class Peer {
    private static final String BASE = "http://peer.example/";
    /** Failures that are shown in full; later ones are only counted. */
    private static final int SHOWN = 20;

    private static final String EMPTY_GROUP = "an empty group";

    /** A class of the peer's own faults: an optimisation or EMPTY_GROUP, and a smallest case. */
    private record Fault(String name, String table, String text) {}

    private static final List<Fault> FAULTS = List.of(
        new Fault(EMPTY_GROUP, "", "{ { } OPTIONAL { { } FILTER(false) } }"),
        new Fault("optFilterDisjunction", "1 1 1 0", "{ { ?0 ?0 ?0 } FILTER(((?0 = :1) || true)) }"),
        new Fault("optFilterEquality", "", "{ { { GRAPH :trusts { ?0 ?0 ?0 } } UNION { } } FILTER((?0 = :1)) }"),
        new Fault("optFilterEquality", "", "{ { { } OPTIONAL { { ?0 ?0 ?0 } UNION { } } } FILTER((?0 = :1)) }"),
        new Fault("optFilterImplicitJoin", "1 1 1 0",
            "{ { { ?0 ?1 ?1 } OPTIONAL { { ?2 ?2 ?2 } FILTER(bound(?0)) } } FILTER((?0 = ?1)) }"),
        new Fault("optFilterImplicitJoin", "1 1 1 0",
            "{ { { { ?0 ?0 ?0 } UNION { ?1 ?1 ?1 } } UNION { { } OPTIONAL { { ?0 ?0 ?1 } FILTER(true) } } } FILTER((?0 = ?1)) }"),
        new Fault("optFilterImplicitJoin", "1 1 1 0",
            "{ { { GRAPH :trusts { ?0 :trust ?1 } } { ?2 ?2 ?2 . ?2 ?3 ?2 } } FILTER((?1 = ?3)) }"),
        new Fault("optImplicitLeftJoin", "1 1 1 0", "{ { } OPTIONAL { { { } UNION { ?0 ?0 ?1 } } FILTER((?0 = ?1)) } }"));

    /** Those of the normal engine that are on and bear on these queries. */
    private static final List<Symbol> OPTIMISATIONS = List.of(ARQ.optFilterDisjunction, ARQ.optFilterEquality, ARQ.optFilterImplicitJoin,
        ARQ.optImplicitLeftJoin, ARQ.optFilterInequality, ARQ.optFilterPlacement, ARQ.optFilterConjunction, ARQ.optExprConstantFolding,
        ARQ.optPromoteTableEmpty, ARQ.optIndexJoinStrategy, ARQ.optMergeBGPs, ARQ.optReorderBGP);

    /** An engine of the peer. */
    private record Way(String name, QueryEngineFactory engine, Context context) {
        Way(String name, QueryEngineFactory engine) {
            this(name, engine, ARQ.getContext().copy());
        }

        /** The same engine without one of its optimisations. */
        Way without(Symbol optimisation) {
            Context context = this.context.copy();
            context.set(optimisation, false);
            return new Way(name + " without " + shortName(optimisation), engine, context);
        }

        /** The rows as they stand in the file of questions. */
        String rows(DatasetGraph data, String text) {
            Query query = QueryFactory.create("PREFIX : <" + BASE + "> SELECT * " + text, Syntax.syntaxSPARQL_11);
            List<String> rows = new ArrayList<>();
            QueryIterator solutions = engine.create(query, data, BindingFactory.empty(), context).iterator();
            solutions.forEachRemaining(solution -> rows.add(row(query.getProjectVars(), solution)));
            solutions.close();
            Collections.sort(rows);
            return String.join(" | ", rows);
        }
    }

    private static String shortName(Symbol optimisation) {
        return optimisation.getSymbol().replaceAll(".*#", "");
    }

    private static String row(List<Var> variables, Binding solution) {
        Map<Integer, String> cells = new TreeMap<>();
        for (Var variable : variables) {
            if (solution.contains(variable)) {
                String cell = variable + "=" + cell(solution.get(variable));
                cells.put(Integer.valueOf(variable.getVarName()), cell);
            }
        }
        return cells.isEmpty() ? "-" : String.join(" ", cells.values());
    }

    private static String cell(Node node) {
        if (node.isURI() && node.getURI().startsWith(BASE)) {
            return ":" + node.getURI().substring(BASE.length());
        }
        return node.isLiteral() ? node.getLiteralLexicalForm() : node.toString();
    }

    private static Node iri(String name) {
        return NodeFactory.createURI(BASE + name);
    }

    /** A table as the default graph; as the graph :trusts those of its records whose trust is known. */
    private static DatasetGraph data(String table) {
        DatasetGraph data = DatasetGraphFactory.create();
        for (String record : table.isEmpty() ? new String[0] : table.split(" \\| ")) {
            String[] fields = record.split(" ");
            data.add(Quad.defaultGraphIRI, iri(fields[0]), iri(fields[1]), iri(fields[2]));
            if (!fields[3].equals("?")) {
                Node node = NodeFactory.createBlankNode();
                data.add(iri("trusts"), node, iri("subject"), iri(fields[0]));
                data.add(iri("trusts"), node, iri("predicate"), iri(fields[1]));
                data.add(iri("trusts"), node, iri("object"), iri(fields[2]));
                data.add(iri("trusts"), node, iri("trust"), NodeFactoryExtra.intToNode(Integer.parseInt(fields[3])));
            }
        }
        return data;
    }

    private final Way reference = new Way("reference engine", QueryEngineRef.getFactory());
    private final Way normal = new Way("normal engine", QueryEngineMain.getFactory());
    private final Way plain = normal.without(ARQ.optimization);
    private final Map<String, Integer> compared = new TreeMap<>();
    /** How many questions show a class of the peer's faults, and the shortest one. */
    private final Map<String, Integer> faults = new TreeMap<>();
    private final Map<String, String> shortest = new TreeMap<>();
    private int passed;
    private int failed;
    /** The case that questions are about, with its name, table and query, and its data. */
    private String[] here;
    private DatasetGraph data;

    private void check(boolean good, String message) {
        if (good) {
            passed++;
        } else if (++failed <= SHOWN) {
            System.out.println("FAILED " + message);
        }
    }

    /** The rows of an answer, or the peer's complaint. */
    private String answer(Way way, String text) {
        try {
            return way.rows(data, text);
        } catch (RuntimeException fault) {
            return fault.toString();
        }
    }

    private void compare(Way way, String about, String text, String rows, String answer) {
        compared.merge(about + " by the " + way.name, 1, Integer::sum);
        check(answer.equals(rows), String.join("\n    ", here[1] + ", " + about + " by the " + way.name + ":",
            "table: " + here[2], "query: " + here[3], "SPARQL: " + text, "our rows: " + rows, "the peer's rows: " + answer));
    }

    private void part(String about, String text, String rows) {
        compare(normal, about, text, rows, answer(normal, text));
    }

    /** A whole query. Where the peer contradicts itself that is its own fault, and no case. */
    private void whole(String about, String text, String rows) {
        String answer = answer(plain, text);
        compare(plain, about, text, rows, answer);
        String byReference = answer(reference, text);
        if (!byReference.equals(answer) && answer(reference, withoutEmptyGroups(text)).equals(answer)) {
            fault(EMPTY_GROUP, text);
        } else {
            compare(reference, about, text, rows, byReference);
        }
        if (!answer(normal, text).equals(answer)) {
            fault(optimisation(text, answer), text);
        }
    }

    /** The same query: an empty group has the one row without cells, and so have these VALUES. */
    private static String withoutEmptyGroups(String text) {
        return text.replace("{ }", "{ VALUES () { () } }");
    }

    /** The optimisation, or the two, without which the normal engine gives this answer. */
    private String optimisation(String text, String answer) {
        for (Symbol one : OPTIMISATIONS) {
            if (answer(normal.without(one), text).equals(answer)) {
                return shortName(one);
            }
        }
        for (Symbol one : OPTIMISATIONS) {
            for (Symbol other : OPTIMISATIONS) {
                if (answer(normal.without(one).without(other), text).equals(answer)) {
                    return shortName(one) + " with " + shortName(other);
                }
            }
        }
        return "several optimisations";
    }

    private void fault(String name, String text) {
        faults.merge(name, 1, Integer::sum);
        shortest.merge(name, text, (old, now) -> now.length() < old.length() ? now : old);
    }

    /** Says where the peer contradicts itself: the smallest cases, as far as a fault is still there, and what was seen. */
    private void sayFaults() {
        for (Fault fault : FAULTS) {
            data = data(fault.table);
            String answer = answer(fault.name.equals(EMPTY_GROUP) ? reference : normal, fault.text);
            String right = answer(plain, fault.text);
            System.out.println("for information, the peer's fault " + fault.name + ": " + (answer.equals(right) ? "mended: " + fault.text
                : fault.text + " on " + (fault.table.isEmpty() ? "no record" : fault.table) + " lists " + shown(answer)
                    + " in the place of " + shown(right)));
        }
        faults.forEach((name, count) -> System.out.println(
            "for information, whole queries with the peer's fault " + name + ": " + count + ", such as " + shortest.get(name)));
    }

    private static String shown(String rows) {
        return rows.isEmpty() ? "no row" : "(" + rows + ")";
    }

    private void run(List<String> lines) {
        int count = 0;
        boolean ended = false;
        for (String line : lines) {
            String[] fields = line.split("\t", -1);
            switch (fields[0]) {
                case "case" -> {
                    here = fields;
                    data = data(fields[2]);
                }
                case "whole" -> whole(fields[1], fields[2], fields[3]);
                case "part" -> part(fields[1], fields[2], fields[3]);
                default -> ended = fields[1].equals(Integer.toString(count));
            }
            count++;
        }
        check(ended, "the file of questions is not whole");
        check(faults.getOrDefault(EMPTY_GROUP, 0) < count / 100, "the reference engine contradicts itself too often");
        compared.forEach((what, number) -> System.out.println("compared: " + what + ": " + number));
        sayFaults();
    }

    public static void main(String[] arguments) throws IOException {
        JenaSystem.init();
        Peer peer = new Peer();
        peer.run(Files.readAllLines(Path.of(arguments[0])));
        System.out.println(peer.passed + " passed, " + peer.failed + " failed");
        System.exit(peer.failed == 0 ? 0 : 1);
    }
}
