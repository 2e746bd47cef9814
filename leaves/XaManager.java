/** A resource manager of {@link XaLeaf}: what it is beside its {@link javax.transaction.xa.XAResource}. */
interface XaManager {
    Session open() throws Exception;

    /** Ends what an earlier leaf had under way, and waits until it is gone. */
    void endOthers() throws Exception;

    /** Makes sure that what was prepared or ended is on the disk. */
    default void force() throws Exception { }

    /** Whether recover lists a promise while the session that made it is there: then XA_OK alone is not taken for one. */
    boolean listsAll();

    /** A session, and its work. */
    interface Session {
        javax.transaction.xa.XAResource xa();

        /** Whether it was done. An exception: it was refused. */
        boolean perform(String[] words) throws Exception;

        /** A number as others see it: none if it cannot be looked at now. */
        Long see(String key) throws Exception;

        void close();
    }
}
