package greet;

public class Spare {
    public void wait(Greeter greeter) {
    }
}
