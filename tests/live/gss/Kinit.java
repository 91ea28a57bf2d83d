import sun.security.krb5.KrbAsReqBuilder;
import sun.security.krb5.PrincipalName;
import sun.security.krb5.internal.ccache.CredentialsCache;

/** Gets a user's ticket by its password, and writes it to a credential cache, as the JDK's kinit does: Kinit USER PASSWORD FILE */
public class Kinit {
    public static void main(String[] arguments) throws Exception {
        PrincipalName user = new PrincipalName(arguments[0]);
        KrbAsReqBuilder request = new KrbAsReqBuilder(user, arguments[1].toCharArray());
        request.action();
        CredentialsCache cache = CredentialsCache.create(user, arguments[2]);
        cache.update(request.getCCreds());
        cache.save();
        request.destroy();
    }
}
