// A client of POP3 that logs in by Java's own mechanism GSSAPI of SASL: java Pop PORT CASE .., a case being QOP/AUTHORIZATION_ID/COUNT,
// without an authorization id where that is empty. For each case it logs in, says STAT this many times and QUIT, and prints the case,
// the end of the log-in with the layer that Java tells, and how many times STAT was answered. A ticket is taken from the cache.
import java.io.*;
import java.net.Socket;
import java.nio.charset.StandardCharsets;
import java.security.PrivilegedExceptionAction;
import java.util.*;
import javax.security.auth.Subject;
import javax.security.auth.login.*;
import javax.security.sasl.*;

public class Pop {
    static DataInputStream from;
    static OutputStream to;
    static SaslClient client;
    static StringBuilder opened = new StringBuilder();

    static boolean layered() {
        return client != null && client.isComplete() && !"auth".equals(client.getNegotiatedProperty(Sasl.QOP));
    }

    static void say(String line) throws IOException {
        byte[] text = (line + "\r\n").getBytes(StandardCharsets.UTF_8);
        if (!layered()) {
            to.write(text);
            return;
        }
        byte[] message = client.wrap(text, 0, text.length);
        ByteArrayOutputStream frame = new ByteArrayOutputStream();
        new DataOutputStream(frame).writeInt(message.length);
        frame.write(message);
        to.write(frame.toByteArray());
    }

    static void receive() throws IOException {
        byte[] text = new byte[layered() ? from.readInt() : 1];
        from.readFully(text);
        if (layered()) text = client.unwrap(text, 0, text.length);
        opened.append(new String(text, StandardCharsets.UTF_8));
    }

    static String line() throws IOException {
        while (opened.indexOf("\n") < 0) receive();
        String line = opened.substring(0, opened.indexOf("\n")).trim();
        opened.delete(0, opened.indexOf("\n") + 1);
        return line;
    }

    /** The last line of the server, and what Java tells of the layer. */
    static String logIn() throws IOException {
        say("AUTH GSSAPI");
        String line = line();
        while (line.startsWith("+") && !line.startsWith("+OK")) {
            byte[] challenge = Base64.getDecoder().decode(line.substring(1).trim());
            byte[] answer = client.evaluateChallenge(challenge);
            // The layer begins after the server's last line, which is in the clear.
            to.write((Base64.getEncoder().encodeToString(answer == null ? new byte[0] : answer) + "\r\n").getBytes());
            StringBuilder text = new StringBuilder();
            for (int octet = from.read(); octet >= 0 && octet != '\n'; octet = from.read()) text.append((char) octet);
            line = text.toString().trim();
        }
        return line.startsWith("+OK") ? line + " " + client.getNegotiatedProperty(Sasl.QOP) : line;
    }

    static int statistics(int count) throws IOException {
        int answered = 0;
        for (int i = 0; i < count; i++) {
            say("STAT");
            if (line().equals("+OK 0 0")) answered++;
        }
        say("QUIT");
        line();
        return answered;
    }

    static void run(int port, String words) throws IOException {
        String[] parts = words.split("/");
        Map<String, String> properties = new HashMap<>();
        properties.put(Sasl.QOP, parts[0]);
        properties.put(Sasl.SERVER_AUTH, "true");
        String user = parts[1].isEmpty() ? null : parts[1];
        try (Socket socket = new Socket("127.0.0.1", port)) {
            socket.setSoTimeout(10000);
            from = new DataInputStream(new BufferedInputStream(socket.getInputStream()));
            to = socket.getOutputStream();
            opened.setLength(0);
            client = null;
            line();
            client = Sasl.createSaslClient(new String[] {"GSSAPI"}, user, "pop", "server.example.com", properties, null);
            String end = logIn();
            System.out.println(words + ": " + end + (end.startsWith("+OK") ? " " + statistics(Integer.parseInt(parts[2])) : ""));
        }
    }

    static Void runAll(String[] words) throws IOException {
        for (int i = 1; i < words.length; i++) run(Integer.parseInt(words[0]), words[i]);
        return null;
    }

    /** The log-in that takes its ticket from the cache, without a file of its own. */
    static class Cached extends Configuration {
        public AppConfigurationEntry[] getAppConfigurationEntry(String name) {
            Map<String, String> options = Map.of("useTicketCache", "true", "doNotPrompt", "true");
            return new AppConfigurationEntry[] {new AppConfigurationEntry("com.sun.security.auth.module.Krb5LoginModule",
                AppConfigurationEntry.LoginModuleControlFlag.REQUIRED, options)};
        }
    }

    public static void main(String[] words) throws Exception {
        LoginContext login = new LoginContext("client", new Subject(), null, new Cached());
        login.login();
        Subject.doAs(login.getSubject(), (PrivilegedExceptionAction<Void>) () -> runAll(words));
    }
}
