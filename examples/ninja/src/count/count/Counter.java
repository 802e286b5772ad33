package count;

public class Counter {
    public int total;

    public void add() {
        total = total + 1;
    }
}
