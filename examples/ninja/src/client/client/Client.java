package client;

import count.Counter;
import greet.Greeter;

public class Client {
    public static void run() {
        new Greeter().greet();
        new Counter().add();
    }
}
