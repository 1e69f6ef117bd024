import java.io.BufferedReader;
import java.io.FileDescriptor;
import java.io.FileOutputStream;
import java.io.IOException;
import java.io.InputStreamReader;
import java.io.PrintStream;
import java.nio.charset.StandardCharsets;
import org.apache.lucene.analysis.standard.StandardAnalyzer;
import org.apache.lucene.document.Document;
import org.apache.lucene.document.Field;
import org.apache.lucene.document.NumericDocValuesField;
import org.apache.lucene.document.TextField;
import org.apache.lucene.index.DirectoryReader;
import org.apache.lucene.index.IndexWriter;
import org.apache.lucene.index.IndexWriterConfig;
import org.apache.lucene.index.Term;
import org.apache.lucene.search.BooleanClause;
import org.apache.lucene.search.BooleanQuery;
import org.apache.lucene.search.FieldDoc;
import org.apache.lucene.search.IndexSearcher;
import org.apache.lucene.search.PhraseQuery;
import org.apache.lucene.search.Query;
import org.apache.lucene.search.ScoreDoc;
import org.apache.lucene.search.Sort;
import org.apache.lucene.search.SortField;
import org.apache.lucene.search.TermQuery;
import org.apache.lucene.store.ByteBuffersDirectory;

/** Lucene's near-real-time reader over lines: an id, a tab and a text add a message; a question mark, a kind and words ask. */
public class Lucene {
    static Term term(String word) {
        return new Term("text", word);
    }

    static Query both(String one, BooleanClause.Occur first, String other, BooleanClause.Occur second) {
        BooleanQuery.Builder builder = new BooleanQuery.Builder();
        builder.add(new TermQuery(term(one)), first);
        builder.add(new TermQuery(term(other)), second);
        return builder.build();
    }

    static Query query(String[] words) {
        switch (words[0]) {
            case "word":
                return new TermQuery(term(words[1]));
            case "and":
                return both(words[1], BooleanClause.Occur.MUST, words[2], BooleanClause.Occur.MUST);
            case "or":
                return both(words[1], BooleanClause.Occur.SHOULD, words[2], BooleanClause.Occur.SHOULD);
            case "not":
                return both(words[1], BooleanClause.Occur.MUST, words[2], BooleanClause.Occur.MUST_NOT);
            case "phrase":
                return new PhraseQuery("text", words[1], words[2]);
            default:
                throw new IllegalArgumentException(words[0]);
        }
    }

    public static void main(String[] args) throws IOException {
        int wanted = Integer.parseInt(args[0]);
        Sort newest = new Sort(new SortField("id", SortField.Type.LONG, true));
        BufferedReader in = new BufferedReader(new InputStreamReader(System.in, StandardCharsets.UTF_8), 1 << 16);
        PrintStream out = new PrintStream(new FileOutputStream(FileDescriptor.out), false, "UTF-8");
        IndexWriter writer = new IndexWriter(new ByteBuffersDirectory(), new IndexWriterConfig(new StandardAnalyzer()));
        DirectoryReader reader = DirectoryReader.open(writer);
        for (String line = in.readLine(); line != null; line = in.readLine()) {
            if (!line.startsWith("?")) {
                int tab = line.indexOf('\t');
                Document document = new Document();
                document.add(new NumericDocValuesField("id", Long.parseLong(line.substring(0, tab))));
                document.add(new TextField("text", line.substring(tab + 1), Field.Store.NO));
                writer.addDocument(document);
                continue;
            }
            DirectoryReader later = DirectoryReader.openIfChanged(reader, writer);
            if (later != null) {
                reader.close();
                reader = later;
            }
            Query asked = query(line.substring(1).split("\t"));
            StringBuilder answer = new StringBuilder();
            for (ScoreDoc found : new IndexSearcher(reader).search(asked, wanted, newest).scoreDocs) {
                answer.append(((FieldDoc) found).fields[0]).append(' ');
            }
            out.println(answer);
            if (!in.ready()) {
                out.flush();
            }
        }
        out.flush();
    }
}
