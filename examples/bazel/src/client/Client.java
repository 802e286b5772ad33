package client;

import greet.Greeter;

public class Client {
    public static void run() {
        new Greeter().greet();
    }
}
