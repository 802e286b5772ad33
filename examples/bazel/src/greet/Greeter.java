package greet;

public class Greeter {
    private int calls;

    public void greet() {
        calls = calls + 1;
    }
}
