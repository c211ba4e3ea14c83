package sample.open;

public class Task implements Runnable {
    public void run() { }
}
