//! Requests that are refused at once.

const WITHOUT_A_TARGET: &str = "\
     initiator 7 pc -\n\
     call - -\n\
     refused NoCredentials NoTarget\n\
     call K -\n\
     refused NoCredentials NoTarget";

const WITHOUT_A_HOST: &str = "\
     initiator 7 pc host\n\
     call - -\n\
     refused InvalidParameter Target";

const NOBODY: &str = "\
     initiator 7 pc host/x\n\
     call - -\n\
     refused WrongCredentialHandle NoIdentity\n\
     call - 00\n\
     refused InvalidToken Shape\n\
     call - BARE_TGT_REP\n\
     refused InvalidToken Shape\n\
     call E BARE_TGT_REP\n\
     refused WrongCredentialHandle NoIdentity\n\
     call - 60818d0601010909308185a003020105a103020111a27961773075a003020105a10d1b0b4558414d504c452e434f4da2163014a00302010\
     2a10d300b1b066b72627467741b0158a3473045a003020112a23e043c3c434a51585f666d747b828990979ea5acb3bac1c8cfd6dde4ebf2f900070\
     e151c232a31383f464d545b626970777e858c939aa1a8afb6bdc4cbd2d9\n\
     refused WrongCredentialHandle NoIdentity";

const OF_A_REALM_WITHOUT_A_KDC: &str = "\
     initiator 7 pc host/x\n\
     password alice NOWHERE a\n\
     call - -\n\
     refused NoAuthenticatingAuthority NoKdc";

const OVER_AN_UNKNOWN_SCHEME: &str = "\
     initiator 7 pc host/x\n\
     kdc ftp://kdc.example\n\
     password alice  \n\
     call - -\n\
     refused InvalidParameter Scheme";

const OF_AN_EMPTY_SERVICE: &str = "\
     initiator 7 pc /x\n\
     call - -\n\
     refused InvalidParameter Target";

const OF_AN_EMPTY_HOST: &str = "\
     initiator 7 pc x/\n\
     call K -\n\
     refused InvalidParameter Target";

pub static SESSIONS: [&str; 7] = [
    WITHOUT_A_TARGET,
    WITHOUT_A_HOST,
    NOBODY,
    OF_A_REALM_WITHOUT_A_KDC,
    OVER_AN_UNKNOWN_SCHEME,
    OF_AN_EMPTY_SERVICE,
    OF_AN_EMPTY_HOST,
];
