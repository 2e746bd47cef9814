import org.apache.activemq.broker.BrokerService;
import org.apache.activemq.broker.region.policy.PolicyEntry;
import org.apache.activemq.broker.region.policy.PolicyMap;

/** ActiveMQ's broker in a folder, at 127.0.0.1 alone, for tools/live leaf: LiveBroker FOLDER PORT. Its journal is synced. */
public class LiveBroker {
    public static void main(String[] words) throws Exception {
        BrokerService broker = new BrokerService();
        broker.setBrokerName("live");
        broker.setDataDirectory(words[0]);
        broker.setPersistent(true);
        broker.setUseJmx(false);
        broker.setAdvisorySupport(false);
        PolicyEntry whole = new PolicyEntry();
        whole.setMaxBrowsePageSize(1_000_000); // a browser counts all messages
        PolicyMap policies = new PolicyMap();
        policies.setDefaultEntry(whole);
        broker.setDestinationPolicy(policies);
        broker.addConnector("tcp://127.0.0.1:" + words[1]);
        broker.start();
        broker.waitUntilStopped();
    }
}
