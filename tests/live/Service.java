// A service of the protocol of MIT's sample programs, by Java's own GSS-API:  java Service PORT KEYTAB PRINCIPAL
// With the port alone it is by the system's GSS-API (-Dsun.security.jgss.native=true), whose default credential it takes.
// It answers each message by a MIC over its text. A message that Java tells to be repeated, old or out of its order, or before which it
// tells that one is missing, ends the connection.
import java.io.*;
import java.net.*;
import java.security.PrivilegedExceptionAction;
import java.util.Map;
import javax.security.auth.Subject;
import javax.security.auth.login.*;
import org.ietf.jgss.*;

public class Service {
    static final int NO_OPERATION = 0x01, CONTEXT = 0x02, DATA = 0x04, MIC = 0x08, CONTEXT_NEXT = 0x10;
    static DataInputStream from;
    static DataOutputStream to;

    /** The octets of a frame whose first octet is this, or null. */
    static byte[] read(int says) throws IOException {
        int said = from.readUnsignedByte();
        byte[] octets = new byte[from.readInt()];
        from.readFully(octets);
        return (said & says) == says ? octets : null;
    }

    static void write(int says, byte[] octets) throws IOException {
        to.writeByte(says);
        to.writeInt(octets.length);
        to.write(octets);
        to.flush();
    }

    static void logIn(GSSContext context) throws Exception {
        read(NO_OPERATION | CONTEXT_NEXT);
        while (!context.isEstablished()) {
            byte[] token = read(CONTEXT);
            byte[] answer = context.acceptSecContext(token, 0, token.length);
            if (answer != null && answer.length > 0) write(CONTEXT, answer);
        }
        System.out.println("admitted: " + context.getSrcName());
    }

    static byte[] open(GSSContext context, byte[] token) throws Exception {
        MessageProp said = new MessageProp(false);
        byte[] text = context.unwrap(token, 0, token.length, said);
        if (said.isGapToken()) throw new IOException("a message is missing");
        if (said.isDuplicateToken() || said.isOldToken() || said.isUnseqToken()) throw new IOException("a message is out of its order");
        System.out.println(text.length + " octets, " + (said.getPrivacy() ? "sealed" : "with a checksum"));
        return text;
    }

    static void serve(GSSContext context) throws Exception {
        logIn(context);
        for (byte[] token = read(DATA); token != null; token = read(DATA)) {
            byte[] text = open(context, token);
            write(MIC, context.getMIC(text, 0, text.length, new MessageProp(false)));
        }
    }

    static Void serveAll(int port) throws Exception {
        GSSManager manager = GSSManager.getInstance();
        try (ServerSocket listener = new ServerSocket(port, 5, InetAddress.getByName("127.0.0.1"))) {
            while (true) {
                try (Socket client = listener.accept()) {
                    client.setSoTimeout(30000);
                    from = new DataInputStream(new BufferedInputStream(client.getInputStream()));
                    to = new DataOutputStream(new BufferedOutputStream(client.getOutputStream()));
                    serve(manager.createContext((GSSCredential) null));
                } catch (IOException | GSSException error) {
                    System.out.println(error);
                }
            }
        }
    }

    public static void main(String[] words) throws Exception {
        if (words.length == 1) serveAll(Integer.parseInt(words[0]));
        Map<String, String> options = Map.of("useKeyTab", "true", "keyTab", words[1], "principal", words[2], "storeKey", "true",
            "isInitiator", "false", "doNotPrompt", "true");
        LoginContext login = new LoginContext("service", new Subject(), null, new Configuration() {
            public AppConfigurationEntry[] getAppConfigurationEntry(String name) {
                return new AppConfigurationEntry[] {new AppConfigurationEntry("com.sun.security.auth.module.Krb5LoginModule",
                    AppConfigurationEntry.LoginModuleControlFlag.REQUIRED, options)};
            }
        });
        login.login();
        Subject.doAs(login.getSubject(), (PrivilegedExceptionAction<Void>) () -> serveAll(Integer.parseInt(words[0])));
    }
}
