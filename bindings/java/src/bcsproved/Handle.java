package bcsproved;

/** A handle of bcs.h. The last call that uses it frees it, if it is closed. */
final class Handle implements Runnable {
    private long address;
    private long users = 0;
    private boolean isClosed = false;

    Handle(long address) {
        this.address = address;
    }

    synchronized long enter() {
        if (isClosed) {
            throw new IllegalStateException("the registry is closed");
        }
        users++;
        return address;
    }

    synchronized void leave() {
        users--;
        free();
    }

    /** Closes the handle. */
    @Override
    public synchronized void run() {
        isClosed = true;
        free();
    }

    private void free() {
        if (isClosed && users == 0) {
            Native.close(address);
            address = 0;
        }
    }
}
