import java.util.Enumeration;
import javax.jms.InvalidClientIDException;
import javax.jms.JMSException;
import javax.jms.MessageConsumer;
import javax.jms.MessageProducer;
import javax.jms.Queue;
import javax.jms.QueueBrowser;
import javax.jms.XAConnection;
import javax.jms.XAConnectionFactory;
import javax.jms.XASession;
import javax.transaction.xa.XAResource;

/** ActiveMQ's XA sessions. `put QUEUE TEXT` sends, `del QUEUE` takes a message, if there is one, `get QUEUE` looks. */
class XaJms implements XaManager {
    private static final String OPTIONS = "jms.watchTopicAdvisories=false&jms.prefetchPolicy.queuePrefetch=0";
    private final XAConnection connection;

    /** The broker lets a client's name in again only once the connection that had it is gone: so no earlier leaf is at work. */
    XaJms(String url, String name) throws Exception {
        XAConnectionFactory factory = (XAConnectionFactory) Class.forName("org.apache.activemq.ActiveMQXAConnectionFactory")
            .getConstructor(String.class)
            .newInstance(url + (url.contains("?") ? "&" : "?") + OPTIONS);
        XAConnection made = null;
        for (; made == null; XaLeaf.pause(20)) {
            made = factory.createXAConnection();
            try {
                made.setClientID(name);
                made.start();
            } catch (InvalidClientIDException e) {
                made.close();
                made = null;
            }
        }
        connection = made;
    }

    public void endOthers() { }
    public boolean listsAll() { return false; }
    public Session open() throws JMSException { return new JmsSession(connection.createXASession()); }

    private record JmsSession(XASession session) implements XaManager.Session {
        public XAResource xa() { return session.getXAResource(); }

        public boolean perform(String[] words) throws JMSException {
            Queue queue = session.createQueue(words[1]);
            if (words[0].equals("put")) {
                MessageProducer to = session.createProducer(queue);
                to.send(session.createTextMessage(words[2]));
                to.close();
                return true;
            }
            if (words[0].equals("get")) return see(words[1]) >= 0;
            MessageConsumer from = session.createConsumer(queue);
            boolean taken = from.receive(300) != null;
            from.close();
            return taken;
        }

        public Long see(String key) throws JMSException {
            QueueBrowser look = session.createBrowser(session.createQueue(key));
            long count = 0;
            for (Enumeration<?> found = look.getEnumeration(); found.hasMoreElements(); found.nextElement()) count++;
            look.close();
            return count;
        }

        public void close() {
            try { session.close(); } catch (JMSException e) { /* it is gone */ }
        }
    }
}
