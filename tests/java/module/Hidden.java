package module;

/** A class of which hidden ones are made. */
public class Hidden {
    private int count;
    private String text = "";

    public int next() {
        return ++count;
    }

    public String text() {
        text += count;
        return text;
    }
}
