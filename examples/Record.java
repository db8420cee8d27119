/* A program that records its own run:
 *
 *     java examples/Record.java > trace.txt
 *     wcp replay < trace.txt
 *
 * The class Trace is the recorder. The rest is a program that reports each access and each call to it. It has
 * a race on `config`, whatever the schedule. */
public class Record {
    static int config, jobs;
    static final Object m = new Object();

    public static void main(String[] words) throws InterruptedException {
        Thread worker = new Thread(Record::work, "worker");
        Trace.line("fork", "worker");
        worker.start();
        Trace.step(() -> config = 1, "w", "config");
        synchronized (m) {
            Trace.line("acq", "m");
            Trace.line("rel", "m");
        }
        worker.join();
        Trace.line("join", "worker");
    }

    static void work() {
        synchronized (m) {
            Trace.line("acq", "m");
            int[] seen = new int[1];
            Trace.step(() -> seen[0] = jobs, "r", "jobs");
            Trace.step(() -> jobs = seen[0] + 1, "w", "jobs");
            Trace.line("rel", "m");
        }
        int[] seen = new int[1];
        Trace.step(() -> seen[0] = config, "r", "config");
    }
}

class Trace {
    /* One step: an access, and the writing of its line. */
    static synchronized void step(Runnable access, String operation, String name) {
        access.run();
        line(operation, name);
    }

    /* It is called after an acquire and a join, and before a release and a fork. */
    static synchronized void line(String operation, String name) {
        StackTraceElement at = StackWalker.getInstance().walk(frames ->
            frames.filter(f -> !f.getClassName().equals("Trace")).findFirst().get().toStackTraceElement());
        System.out.println(Thread.currentThread().getName() + "|" + operation + "(" + name + ")|"
            + at.getFileName() + ":" + at.getLineNumber());
    }
}
